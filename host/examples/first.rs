//! Runs the program in the file named, with the second text in a second file if one is named: verdict line, then report.
//! docs/examples/first.c does the same in C.

use std::io::Write;

fn main() -> std::io::Result<()> {
    let mut names = std::env::args().skip(1);
    let text = std::fs::read(names.next().expect("usage: first FILE [SECOND]"))?;
    let input = names.next().map_or(Ok(Vec::new()), std::fs::read)?;
    let mut output = std::io::stdout();
    let mut report = [0; baqolluy::REPORT_LENGTH];
    let mut work = vec![0; baqolluy::WORK_LENGTH];
    let session = baqolluy::open(1_000);
    let answer = baqolluy::run(&text, &input, session, &mut report, &mut work);
    if answer.refusal != baqolluy::refusal::NONE {
        return writeln!(output, "08{:02X}", answer.refusal);
    }
    let verdict = baqolluy::check(&text);
    writeln!(output, "0800{:02X}{:02X}", verdict.class, verdict.tag)?;
    output.write_all(&report[..usize::from(answer.length)])?;
    let closing = baqolluy::close(answer.session);
    assert_eq!(closing.refusal, baqolluy::refusal::NONE);
    Ok(())
}
