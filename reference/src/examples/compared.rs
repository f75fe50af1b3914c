//! Examples for request 2026-04, which changes no answer: values are compared by
//! a call, `m(x, y)`, which calls `m(y, x)`. That is met again at once if x and y
//! unfold to the same tree, and ends with fuel 2; else the call after it is, with
//! fuel 3. Generated pairs are in `generator::batch::pairs`.

use crate::calls::Mode;

/// Classes 2 and 3 lead to a class 1; class 4 has the method.
const RINGS: &str = "01010000\n010201010100\n010301010100\n01040000\n\
                     02040101030103020100010044010240420142004201\n";
/// z against new M(z.f), and against new M(z).
const AGAIN: &str = "040300440102450400420045030143004200\n";
const LONGER: &str = "04030044010245040042004503014200\n";
const RING_OF_TWO: &str = "0500030101\n0501020100\n";

/// Class 1 has a number and leads to a class 1; class 2 has the method.
const TALLIES: &str = "01010002FE000103\n01020000\n\
                       02020101030103020100010044010240420142004201\n";
/// z against an object of z's fields, and of one more than its number.
const SAME_NUMBER: &str = "04010044010245020042004501024300420043014200\n";
const ONE_MORE: &str = "0401004401024502004200450102474300420046000143014200\n";
const TWO_TALLIES: &str = "05000102FE000501\n05010102FE000600\n";

/// An input of `linerun`, and what both modes spend and report.
pub struct Example {
    pub name: &'static str,
    pub input: String,
    pub spends: u16,
    pub report: String,
}

impl Example {
    /// Classes with the method, main, and the parts that come in.
    fn new(name: &'static str, input: [&str; 3], spends: u16, report: &str) -> Example {
        Example {
            name,
            input: input.concat(),
            spends,
            report: report.to_string(),
        }
    }

    /// Fuel, with what is written and what is left of it: one unit too little,
    /// just enough, more.
    pub fn runs(&self, mode: Mode) -> [(u16, (String, u16)); 3] {
        let verdict = match mode {
            Mode::Checked => "08000103\n",
            Mode::Trial => "",
        };
        let whole = format!("{verdict}{}", self.report);
        [
            (self.spends - 1, (format!("{verdict}0702\n"), 0)),
            (self.spends, (whole.clone(), 0)),
            (1_000, (whole, 1_000 - self.spends)),
        ]
    }
}

pub fn all() -> Vec<Example> {
    vec![
        Example::new(
            "a ring and an object equal to it",
            [RINGS, AGAIN, RING_OF_TWO],
            2,
            RING_OF_TWO,
        ),
        Example::new(
            "a ring of 224 parts and an object equal to it",
            [RINGS, AGAIN, &ring(224)],
            2,
            &ring(32),
        ),
        Example::new(
            "a ring and an object that leads to it",
            [RINGS, LONGER, RING_OF_TWO],
            3,
            "0500030101\n0501030102\n0502020101\n",
        ),
        Example::new(
            "equal numbers",
            [TALLIES, SAME_NUMBER, TWO_TALLIES],
            2,
            TWO_TALLIES,
        ),
        Example::new(
            "one number differs",
            [TALLIES, ONE_MORE, TWO_TALLIES],
            3,
            "05000102FE000601\n05010102FE000602\n05020102FE000501\n",
        ),
    ]
}

/// A ring of so many parts, one in 32 of them of class 3.
pub fn ring(count: usize) -> String {
    let part = |number: usize| {
        let class = if number.is_multiple_of(32) { 3 } else { 2 };
        format!("05{number:02X}{class:02X}01{:02X}\n", (number + 1) % count)
    };
    (0..count).map(part).collect()
}
