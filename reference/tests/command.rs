//! The binary: document 01's `linerun` as `run`, and the other commands.

use reference::classes::find;
use reference::reading::read;
use std::io::Write;
use std::process::{Command, Output, Stdio};

const A: &[u8] = b"010100010003\n01020000\n02020101030103004402004041\n\
02020201000102004501014401004041\n03440100450200\n";

fn command(words: &[&str], input: &[u8]) -> Output {
    let mut child = Command::new(env!("CARGO_BIN_EXE_reference"))
        .args(words)
        .stdin(Stdio::piped())
        .stdout(Stdio::piped())
        .stderr(Stdio::piped())
        .spawn()
        .unwrap();
    // A command that reads nothing may be gone before the input is written.
    let _ = child.stdin.take().unwrap().write_all(input);
    child.wait_with_output().unwrap()
}

fn printed(words: &[&str], input: &[u8]) -> String {
    let output = command(words, input);
    assert!(output.status.success());
    assert!(output.stderr.is_empty());
    String::from_utf8(output.stdout).unwrap()
}

#[test]
fn run_writes_verdict_and_report() {
    assert_eq!(printed(&["run"], A), "08000103\n0500010100\n");
    assert_eq!(printed(&["run"], b""), "0801\n");
    assert_eq!(printed(&["run"], b"0341\n"), "0807\n");
    // Longer than a text may be, though every line is one.
    assert_eq!(printed(&["run"], &b"0340\n".repeat(10_000)), "0801\n");
    // 9,913 lines are 49,565 characters: too many mains, but not too long.
    assert_eq!(printed(&["run"], &b"0340\n".repeat(9_913)), "0803\n");
}

#[test]
fn run_cuts_its_input_after_the_first_line_beginning_04() {
    let program = b"010100010003\n0401004200\n";
    let with = |second: &[u8]| printed(&["run"], &[program, second].concat());
    assert_eq!(with(b"05000101FF\n"), "08000100\n05000101FF\n");
    assert_eq!(with(b""), "080E\n");
    assert_eq!(with(b"05000000\n"), "080F\n");
    // Input of any length: a second text is 14 however long it is, and so is
    // one that is sound up to the last character that is read.
    assert_eq!(with(&b"05000101FF\n".repeat(40_000)), "080E\n");
    let sound = |number: usize| format!("05{number:02X}0101FF\n");
    let most: String = (0..254).map(sound).collect();
    assert_eq!(with(most.as_bytes()), "08000100\n05000101FF\n");
    let long = format!("{most}{}", "\n".repeat(90_000));
    assert_eq!(with(long.as_bytes()), "080E\n");
    // The first text is 1 when it is too long, wherever its 04 line is.
    let first = b"0340\n".repeat(20_000);
    let both = [&first[..], b"0401004200\n05000000\n"].concat();
    assert_eq!(printed(&["run"], &both), "0801\n");
    // The longest first text with the longest second one.
    let full = [&b"00".repeat(255)[..], b"\n"].concat().repeat(97);
    let full = [&full[..49_567 - 11], b"0401004200\n"].concat();
    let second = b"05000204FE0000FE0000FE0000FE000F\n".repeat(254);
    let both = [&full[..], &second].concat();
    assert_eq!((full.len(), both.len()), (49_567, 57_949));
    assert_eq!(printed(&["run"], &both), "0801\n");
}

#[test]
fn rows_stats_and_emit_depend_on_the_seed_only() {
    let rows = printed(&["rows", "4", "20"], b"");
    assert_eq!(rows.lines().count(), 20);
    assert_eq!(rows, printed(&["rows", "4", "20"], b""));
    assert_ne!(rows, printed(&["rows", "5", "20"], b""));
    assert!(printed(&["stats", "4", "40"], b"").contains("checked: verdict 00"));
    let accepted = ["typed", "large", "rings", "chains"].map(|kind| (kind, ["0800"; 2]));
    let refused = [("illtyped", ["0806", "0807"]), ("overrides", ["0805"; 2])];
    for (kind, verdicts) in accepted.into_iter().chain(refused) {
        let text = printed(&["emit", kind, "9"], b"");
        let output = printed(&["run"], text.as_bytes());
        assert!(verdicts.iter().any(|verdict| output.starts_with(verdict)));
    }
}

#[test]
fn rows_and_emit_with_second_texts() {
    let rows = printed(&["rows", "4", "20", "batch"], b"");
    assert!(rows.lines().all(|row| row.split('\t').count() == 6));
    assert_eq!(rows.lines().count(), 20);
    assert_eq!(rows, printed(&["rows", "4", "20", "batch"], b""));
    let kinds = [
        ("fitting", ["0800"; 2]),
        ("rings", ["0800"; 2]),
        ("pairs", ["0800"; 2]),
        ("illtyped", ["0806", "0807"]),
    ];
    for (kind, verdicts) in kinds {
        let input = printed(&["emit", "batch", kind, "9"], b"");
        let output = printed(&["run"], input.as_bytes());
        assert!(verdicts.iter().any(|verdict| output.starts_with(verdict)));
    }
}

#[test]
fn rows_of_searches_for_methods() {
    let rows = printed(&["rows", "4", "300", "find"], b"");
    assert_eq!(rows.lines().count(), 300);
    assert_eq!(rows, printed(&["rows", "4", "300", "find"], b""));
    assert_ne!(rows, printed(&["rows", "5", "300", "find"], b""));
    let (mut found, mut inherited) = (0, 0);
    for row in rows.lines() {
        let fields: Vec<&str> = row.split('\t').collect();
        let [class, name, text, answer] = fields[..] else {
            panic!("{row}");
        };
        let table = read(text.replace("\\n", "\n").as_bytes()).unwrap();
        let expected = find(&table, class.parse().unwrap(), name.parse().unwrap());
        let Some(method) = expected else {
            assert_eq!(answer, "none", "{row}");
            continue;
        };
        let place = format!("{} {}", method.owner, method.number);
        assert_eq!(answer, place, "{row}");
        found += 1;
        inherited += usize::from(method.owner.to_string() != class);
    }
    assert!((180..220).contains(&found), "{found}");
    assert!(inherited > 80, "{inherited}");
}

#[test]
fn anything_else_is_no_command() {
    let wrong: [&[&str]; 11] = [
        &[],
        &["walk"],
        &["run", "fast"],
        &["stats", "1"],
        &["rows", "one", "2"],
        &["emit", "huge", "1"],
        &["emit", "typed"],
        &["emit", "batch", "typed", "1"],
        &["emit", "batch", "rings"],
        &["rows", "1", "2", "rings"],
        &["rows", "1", "find"],
    ];
    for words in wrong {
        let output = command(words, b"");
        assert_eq!(output.status.code(), Some(2), "{words:?}");
        assert!(output.stdout.is_empty());
        assert!(String::from_utf8_lossy(&output.stderr).starts_with("usage:"));
    }
}
