//! Draws two pictures from `docs/error-rates.tsv`, each with a panel for each code: `docs/error-rates.svg` with the bit error rate of each
//! decoder, and `docs/error-rates-marks.svg` with how often sure and fair words are wrong.

use outside::error_rates::{codes, curve, name, read_rows, Decoder, Row, COMPARED};
use outside::reference::Code;
use std::{error::Error, fs, path::Path};

const WIDTH: f64 = 960.0;
const HEIGHT: f64 = 912.0;
const PANEL: (f64, f64) = (390.0, 320.0);
const CORNERS: [(f64, f64); 4] = [(76.0, 136.0), (546.0, 136.0), (76.0, 540.0), (546.0, 540.0)];

/// A curve's colour, and the outline of its marks.
const STYLES: [(&str, &str); 8] = [
    ("#000", "M-3.5-3.5H3.5V3.5H-3.5Z"),
    ("#b07000", "M0-4A4 4 0 0 1 0 4A4 4 0 0 1 0-4Z"),
    ("#c43c1c", "M0-5L4.5 3.5H-4.5Z"),
    ("#a01a6c", "M0-5L5 0L0 5L-5 0Z"),
    ("#5b2fa8", "M0 5L4.5-3.5H-4.5Z"),
    ("#1a63b0", "M-4-4L4 4M-4 4L4-4"),
    ("#00796b", "M-5 0H5M0-5V5"),
    ("#1a63b0", "M0-6L2-2L6 0L2 2L0 6L-2 2L-6 0L-2-2Z"),
];

fn main() -> Result<(), Box<dyn Error>> {
    let docs = Path::new(concat!(env!("CARGO_MANIFEST_DIR"), "/../docs"));
    let rows = read_rows(&docs.join("error-rates.tsv"))?;
    fs::write(docs.join("error-rates.svg"), bit_errors().draw(&rows))?;
    fs::write(docs.join("error-rates-marks.svg"), wrong_marks().draw(&rows))?;
    Ok(())
}

fn bit_errors() -> Picture {
    let curves = COMPARED.into_iter().enumerate().map(|(style, decoder)| Curve {
        style,
        label: decoder.label(),
        decoder,
        rate: |row| row.is_measured().then(|| row.bit_error_rate()),
    });
    Picture {
        title: "Bit error rate of the receiver: hard decoding, and soft decoding at depth 1 to 6",
        subtitle: "Codes (n, k, t); BPSK, Gaussian noise, reliabilities of 0 to 15; gains are read at the dashed line",
        axis: "bit error rate",
        exponents: (-7, -1),
        dashed: Some(-5),
        curves: curves.collect(),
        legend: (80.0, 118.0),
    }
}

/// Depth p has the style that it has in the other picture, where hard decoding has that of depth 0.
fn wrong_marks() -> Picture {
    let fair = [0, 1, 2, 4, 6].map(|depth| Curve {
        style: depth,
        label: format!("fair, depth {depth}"),
        decoder: Decoder::Soft(depth),
        rate: Row::wrong_fair_rate,
    });
    let sure = Curve { style: 7, label: "sure, depth 4".to_string(), decoder: Decoder::Soft(4), rate: Row::wrong_sure_rate };
    Picture {
        title: "How many of the fair words and of the sure words are wrong",
        subtitle:
            "Codes (n, k, t); BPSK, Gaussian noise, reliabilities of 0 to 15; sure words are shown at depth 4, and differ little from depth 1 on",
        axis: "wrong among the words so marked",
        exponents: (-7, 0),
        dashed: None,
        curves: fair.into_iter().chain([sure]).collect(),
        legend: (62.0, 144.0),
    }
}

/// What is drawn. `exponents` are the rates that are shown, as powers of ten; one of them can be a dashed line. The legend begins at an x, and
/// each of its items is so wide.
struct Picture {
    title: &'static str,
    subtitle: &'static str,
    axis: &'static str,
    exponents: (i32, i32),
    dashed: Option<i32>,
    curves: Vec<Curve>,
    legend: (f64, f64),
}

/// A rate of one decoder, where it is measured.
struct Curve {
    style: usize,
    label: String,
    decoder: Decoder,
    rate: fn(&Row) -> Option<f64>,
}

impl Picture {
    fn draw(&self, rows: &[Row]) -> String {
        let Picture { title, .. } = self;
        let markers: String = self.curves.iter().map(|curve| marker(curve.style)).collect();
        let panels = codes(rows).into_iter().zip(CORNERS).map(|(code, corner)| Panel::new(self, rows, corner).draw(rows, code));
        let heading = text(WIDTH / 2.0, 32.0, "middle", &format!("<tspan font-size=\"18\">{title}</tspan>"));
        let subtitle = text(WIDTH / 2.0, 56.0, "middle", self.subtitle);
        let legend = self.legend();
        format!(
            "<svg xmlns=\"http://www.w3.org/2000/svg\" viewBox=\"0 0 {WIDTH} {HEIGHT}\" font-family=\"sans-serif\" font-size=\"13\">\n\
             <title>{title}</title>\n<defs>\n{markers}</defs>\n<rect width=\"100%\" height=\"100%\" fill=\"#fff\"/>\n\
             {heading}{subtitle}{legend}{}</svg>\n",
            panels.collect::<String>()
        )
    }

    fn legend(&self) -> String {
        let (first, width) = self.legend;
        let item = |(i, curve): (usize, &Curve)| {
            let x = first + width * i as f64;
            line(curve.style, &[(x, 85.5), (x + 30.0, 85.5)]) + &text(x + 40.0, 90.0, "start", &curve.label)
        };
        self.curves.iter().enumerate().map(item).collect()
    }
}

/// The mark at each point of a curve.
fn marker(style: usize) -> String {
    let (colour, outline) = STYLES[style];
    format!(
        "<marker id=\"m{style}\" markerUnits=\"userSpaceOnUse\" overflow=\"visible\">\
         <path d=\"{outline}\" fill=\"#fff\" stroke=\"{colour}\" stroke-width=\"1.3\"/></marker>\n"
    )
}

/// A curve through points.
fn line(style: usize, points: &[(f64, f64)]) -> String {
    let points: Vec<String> = points.iter().map(|(x, y)| format!("{x:.1},{y:.1}")).collect();
    format!(
        "<polyline points=\"{}\" fill=\"none\" stroke=\"{}\" stroke-width=\"1.5\" \
         marker-start=\"url(#m{style})\" marker-mid=\"url(#m{style})\" marker-end=\"url(#m{style})\"/>\n",
        points.join(" "),
        STYLES[style].0
    )
}

fn text(x: f64, y: f64, anchor: &str, words: &str) -> String {
    format!("<text x=\"{x:.1}\" y=\"{y:.1}\" text-anchor=\"{anchor}\">{words}</text>\n")
}

/// Where a panel of a picture stands, and the range of Eb/N0 that it shows.
struct Panel<'a> {
    picture: &'a Picture,
    left: f64,
    top: f64,
    first: f64,
    last: f64,
}

impl<'a> Panel<'a> {
    fn new(picture: &'a Picture, rows: &[Row], (left, top): (f64, f64)) -> Panel<'a> {
        let first = rows.iter().map(|row| row.ebn0).fold(f64::INFINITY, f64::min);
        let last = rows.iter().map(|row| row.ebn0).fold(0.0, f64::max);
        Panel { picture, left, top, first: first - 0.25, last: last + 0.25 }
    }

    fn x(&self, ebn0: f64) -> f64 {
        self.left + PANEL.0 * (ebn0 - self.first) / (self.last - self.first)
    }

    fn y(&self, exponent: f64) -> f64 {
        let (least, most) = self.picture.exponents;
        self.top + PANEL.1 * (f64::from(most) - exponent) / f64::from(most - least)
    }

    fn draw(&self, rows: &[Row], code: Code) -> String {
        let curves = self.picture.curves.iter().map(|drawn| self.curve(drawn, &curve(rows, code, drawn.decoder)));
        self.columns() + &self.lines() + &self.frame(&name(code)) + &curves.collect::<String>()
    }

    /// A line and a label for each whole dB.
    fn columns(&self) -> String {
        let column = |ebn0: i32| {
            let x = self.x(f64::from(ebn0));
            let path = format!("<path d=\"M{x:.1} {}v{}\" stroke=\"#ddd\"/>", self.top, PANEL.1);
            path + &text(x, self.top + PANEL.1 + 18.0, "middle", &ebn0.to_string())
        };
        (self.first.ceil() as i32..=self.last.floor() as i32).map(column).collect()
    }

    /// A line and a label for each power of ten.
    fn lines(&self) -> String {
        let line = |exponent: i32| {
            let y = self.y(f64::from(exponent));
            let dashed = self.picture.dashed == Some(exponent);
            let stroke = if dashed { "stroke=\"#666\" stroke-dasharray=\"5 4\"" } else { "stroke=\"#ddd\"" };
            let path = format!("<path d=\"M{} {y:.1}h{}\" {stroke}/>", self.left, PANEL.0);
            let power = match exponent {
                0 => "1".to_string(),
                _ => format!("10<tspan dy=\"-5\" font-size=\"9\">\u{2212}{}</tspan>", -exponent),
            };
            path + &text(self.left - 6.0, y + 5.0, "end", &power)
        };
        (self.picture.exponents.0..=self.picture.exponents.1).map(line).collect()
    }

    /// The frame, with the panel's title and what the axes mean.
    fn frame(&self, title: &str) -> String {
        let Panel { left, top, .. } = *self;
        let (width, height) = PANEL;
        let middle = left + width / 2.0;
        let index = |letter| format!("<tspan dy=\"3\" font-size=\"9\">{letter}</tspan>");
        let ebn0 = format!("E{}<tspan dy=\"-3\">/N</tspan>{}<tspan dy=\"-3\">, dB</tspan>", index('b'), index('0'));
        format!("<rect x=\"{left}\" y=\"{top}\" width=\"{width}\" height=\"{height}\" fill=\"none\" stroke=\"#000\"/>\n")
            + &text(middle, top - 10.0, "middle", &format!("<tspan font-size=\"15\">{title}</tspan>"))
            + &text(middle, top + height + 36.0, "middle", &ebn0)
            + &format!("<g transform=\"translate({} {})rotate(-90)\">", left - 44.0, top + height / 2.0)
            + &text(0.0, 0.0, "middle", self.picture.axis)
            + "</g>\n"
    }

    /// A curve through the points that are measured and within the panel.
    fn curve(&self, curve: &Curve, rows: &[Row]) -> String {
        let points: Vec<(f64, f64)> = rows
            .iter()
            .filter_map(|row| Some((self.x(row.ebn0), self.y((curve.rate)(row)?.log10()))))
            .filter(|&(_, y)| y >= self.top && y <= self.top + PANEL.1)
            .collect();
        line(curve.style, &points)
    }
}
