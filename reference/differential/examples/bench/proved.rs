//! The proved engine's runs, by the mode, for the benchmark. Not here: the calls themselves (host).

use baqolluy::{Answer, Session};
use reference::calls::Mode;

pub use baqolluy::check;

pub fn run(
    mode: Mode,
    text: &[u8],
    input: &[u8],
    fuel: u16,
    report: &mut [u8],
    work: &mut [u8],
) -> Answer {
    let session = Session { active: true, fuel };
    match mode {
        Mode::Checked => baqolluy::run(text, input, session, report, work),
        Mode::Trial => baqolluy::trial(text, input, session, report, work),
    }
}
