//! What is published of the codes: the generators, as the tables of binary BCH codes have them (S. Lin, D. J. Costello, *Error Control
//! Coding*), and the weight distributions of two of the codes. The answers are made of these numbers.

use crate::call::Call;
use crate::sheet::Sheet;
use crate::text::{hex, name};
use outside::reference::Code;

/// For each m the generators of t = 1, 2, 3 at full length. The number's bit i is the coefficient of x^i.
const GENERATORS: [(usize, [u32; 3]); 4] = [
    (5, [0o45, 0o3551, 0o107657]),
    (6, [0o103, 0o12471, 0o1701317]),
    (7, [0o211, 0o41567, 0o11554743]),
    (8, [0o435, 0o267543, 0o156720665]),
];

/// How many codewords have each weight, in the (31, 16) code with t = 3.
const WEIGHTS_31_16: [(usize, usize); 12] =
    [(0, 1), (7, 155), (8, 465), (11, 5208), (12, 8680), (15, 18259), (16, 18259), (19, 8680), (20, 5208), (23, 465), (24, 155), (31, 1)];

/// The same in the (31, 21) code with t = 2.
const WEIGHTS_31_21: [(usize, usize); 24] = [
    (0, 1),
    (5, 186),
    (6, 806),
    (7, 2635),
    (8, 7905),
    (9, 18910),
    (10, 41602),
    (11, 85560),
    (12, 142600),
    (13, 195300),
    (14, 251100),
    (15, 301971),
    (16, 301971),
    (17, 251100),
    (18, 195300),
    (19, 142600),
    (20, 85560),
    (21, 41602),
    (22, 18910),
    (23, 7905),
    (24, 2635),
    (25, 806),
    (26, 186),
    (31, 1),
];

pub fn add(sheet: &mut Sheet) {
    sheet.part("the published generators: the codeword of the message 1 at full length");
    for (m, generators) in GENERATORS {
        for (t, generator) in (1..).zip(generators) {
            add_generator(sheet, Code::new(m, t, (1 << m) - 1), generator);
        }
    }
    sheet.part("the published weight distributions: how many codewords have each weight");
    add_weights(sheet, Code::new(5, 3, 31), &WEIGHTS_31_16);
    add_weights(sheet, Code::new(5, 2, 31), &WEIGHTS_31_21);
}

/// The codeword of the message 1 has the generator's coefficients from position 0 on.
fn add_generator(sheet: &mut Sheet, code: Code, generator: u32) {
    let Code { m, t, n } = code;
    let mut message = vec![0; n - m * t];
    message[0] = 1;
    let coefficient = |position: u32| generator.checked_shr(position).map_or(0, |shifted| shifted as u8 & 1);
    let codeword: Vec<u8> = (0..n as u32).map(coefficient).collect();
    sheet.heading(&format!("m {m}, t {t}: {generator:o} octal"));
    sheet.known(Call::Encode { code, message: &message, room: n }, &format!("written {}", hex(&codeword)));
}

fn add_weights(sheet: &mut Sheet, code: Code, weights: &[(usize, usize)]) {
    let Code { m, t, n } = code;
    assert_eq!(weights.iter().map(|(_, count)| count).sum::<usize>(), 1 << (n - m * t));
    sheet.heading(&format!("the ({n}, {}) code, t {t}", n - m * t));
    let counts: String = weights.iter().map(|(weight, count)| format!(" {weight}:{count}")).collect();
    sheet.add(&format!("weights {}", name(code)), &format!("weights{counts}"));
}
