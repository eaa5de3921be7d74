//! The worked cases of document 01, "Small code, two codewords". The answers are the document's.

use crate::call::Call;
use crate::sheet::Sheet;
use outside::reference::Code;

/// Code E, whose codewords are none set and {0, 2, 5}.
pub const E: Code = Code::new(5, 1, 6);

/// A case of the soft stage, with its answer and the listing of a take that has this word alone.
pub struct SoftCase {
    pub name: &'static str,
    pub depth: usize,
    pub symbols: [u8; 6],
    pub answer: &'static str,
    pub listing: &'static str,
}

pub const SOFT_CASES: [SoftCase; 6] = [
    SoftCase {
        name: "case 5",
        depth: 2,
        symbols: [17, 17, 5, 5, 5, 5],
        answer: "sure 2 3 2 1 2 000000000000",
        listing: "0 sure 2 3 2 0\n1 1 0 0 2",
    },
    SoftCase {
        name: "case 6",
        depth: 0,
        symbols: [17, 17, 5, 5, 5, 5],
        answer: "lost 1 070707070707",
        listing: "0 lost 0 0 1 -\n1 0 0 1 1",
    },
    SoftCase { name: "case 7", depth: 0, symbols: [0; 6], answer: "sure 0 0 0 0 1 000000000000", listing: "0 sure 0 0 1 0\n1 1 0 0 1" },
    SoftCase {
        name: "case 8",
        depth: 2,
        symbols: [25, 1, 2, 1, 1, 2],
        answer: "fair 9 -7 1 0 4 000000000000",
        listing: "0 fair 9 -7 4 0\n1 0 1 0 4",
    },
    SoftCase {
        name: "case 9",
        depth: 4,
        symbols: [25, 1, 2, 1, 1, 2],
        answer: "fair 4 -3 2 8 16 010001000001",
        listing: "0 fair 4 -3 16 1\n1 0 1 0 16",
    },
    SoftCase {
        name: "case 10",
        depth: 0,
        symbols: [17, 5, 5, 5, 5, 5],
        answer: "sure 1 9 1 0 1 000000000000",
        listing: "0 sure 1 9 1 0\n1 1 0 0 1",
    },
];

pub fn add(sheet: &mut Sheet) {
    sheet.part("the worked cases of document 01");
    sheet.heading("case 1");
    sheet.known(Call::Encode { code: E, message: &[1], room: 6 }, "written 010001000001");
    add_hard(sheet, "case 2", [1, 0, 0, 0, 0, 0], "found 1 0 0 0 000000000000");
    add_hard(sheet, "case 3", [1, 1, 0, 0, 0, 0], "lost 0 0 0 0 070707070707");
    add_hard(sheet, "case 4", [1, 0, 1, 0, 0, 0], "found 1 5 0 0 010001000001");
    for case in &SOFT_CASES {
        sheet.heading(case.name);
        sheet.known(Call::Soft { code: E, depth: case.depth, symbols: &case.symbols, room: 6 }, case.answer);
    }
    assert_eq!(sheet.totals(), "6 3 2 1 25");
}

fn add_hard(sheet: &mut Sheet, name: &str, bits: [u8; 6], answer: &str) {
    sheet.heading(name);
    sheet.known(Call::Hard { code: E, bits: &bits, room: 6 }, answer);
}
