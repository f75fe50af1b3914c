//! Refusals 1 to 5 of the reader, each with texts made by hand, and the order
//! in which they are given.

mod common;

use common::{lines, trial};
use reference::calls::check;
use reference::reading::read;
use reference::refusals::Refusal::{self, *};

/// A sound text the bad ones below differ from: class 1 with field 1-, class
/// 2 below it, a method 7 with a parameter, main.
const SOUND: [&str; 5] = [
    "010100010103",
    "01020100",
    "02010701030103010103420040",
    "02020701030103010103420040",
    "03450000",
];

fn sound_with(place: usize, line: &str) -> String {
    let mut changed = SOUND;
    changed[place] = line;
    lines(&changed)
}

/// Every call that reads a text gives the refusal, whatever its mode.
fn refuses(text: &str, refusal: Refusal) {
    assert_eq!(read(text.as_bytes()).err(), Some(refusal), "{text}");
    assert_eq!(check(text.as_bytes()).err(), Some(refusal), "{text}");
    let line = format!("08{:02X}\n", refusal.number());
    assert_eq!(trial(9, text.as_bytes()), (line, 9), "{text}");
}

#[test]
fn the_sound_text_is_read() {
    assert!(read(lines(&SOUND).as_bytes()).is_ok());
}

#[test]
fn refusal_1_not_the_line_form() {
    let texts = [
        "",
        "\n",
        "03450000",
        "03450000\n\n",
        "\n03450000\n",
        "0345000\n",
        "03450 00\n",
        "03450000\r\n",
        "03450000 \n",
        "0345000G\n",
        "01010000\n03450a00\n",
        "03450000\n0",
        "\u{fe}\u{ff}\n",
    ];
    for text in texts {
        refuses(text, LineForm);
    }
}

#[test]
fn refusal_1_lower_case_digits() {
    refuses("0345ff00\n", LineForm);
    refuses("0345FF00\n", Classes);
}

#[test]
fn refusal_1_lengths() {
    // 255 bytes are a line, 256 are not; 97 full lines are a text, and
    // anything more is not, though every line of it is sound.
    let full = format!("{}\n", "00".repeat(255));
    refuses(&full, Frame);
    refuses(&format!("{}\n", "00".repeat(256)), LineForm);
    let longest = full.repeat(97);
    assert_eq!(longest.len(), 49_567);
    refuses(&longest, Frame);
    refuses(&format!("{longest}03450000\n"), LineForm);
}

#[test]
fn refusal_2_first_bytes() {
    for text in [
        "00\n",
        "04\n",
        "40\n",
        "FF450000\n",
        "034A\n",
        "033F\n",
        "0300\n",
    ] {
        refuses(text, Frame);
    }
    refuses(&sound_with(2, "020107010301030101034A0040"), Frame);
    refuses(&sound_with(2, "0201070103010301010342004A"), Frame);
}

#[test]
fn refusal_2_tags() {
    refuses(&sound_with(0, "010100010104"), Frame);
    refuses(&sound_with(2, "02010701040103010103420040"), Frame);
    refuses(&sound_with(2, "02010701030104010103420040"), Frame);
    refuses(&sound_with(2, "020107010301030101FF420040"), Frame);
}

#[test]
fn refusal_2_counts() {
    // 5 own fields, 4 parameters, 4 arguments, 5 values: all there, all over.
    let main = "03450000";
    refuses(&lines(&["01010005 0103 0103 0103 0103 0103", main]), Frame);
    let over = "020107 0103 0103 04 0103 0103 0103 0103 4200 40";
    refuses(&sound_with(2, over), Frame);
    refuses(
        &lines(&["03 440104 450000 450000 450000 450000 450000"]),
        Frame,
    );
    refuses(
        &lines(&["03 450005 450000 450000 450000 450000 450000"]),
        Frame,
    );
    for main in [
        "03 440103 450000 450000 450000 450000",
        "03 450004 450000 450000 450000 450000",
    ] {
        assert!(read(lines(&[main]).as_bytes()).is_ok());
    }
}

#[test]
fn refusal_2_nesting() {
    // Six deep passes, seven does not, whichever expression makes the levels.
    for level in ["4300", "440100", "450001"] {
        let deep = |levels: usize| format!("03{}450000\n", level.repeat(levels));
        assert!(read(deep(5).as_bytes()).is_ok(), "{level}");
        refuses(&deep(6), Frame);
    }
    // The deepest part counts, not the first: a receiver 1 deep, an argument 6.
    let argument = |levels: usize| format!("0344010140{}41\n", "4300".repeat(levels));
    assert!(read(argument(4).as_bytes()).is_ok());
    refuses(&argument(5), Frame);
}

#[test]
fn refusal_2_lengths() {
    let whole = [
        "010100010103",
        "02010701030103010103420040",
        "03440100450000",
    ];
    for line in whole {
        for cut in (2..line.len()).step_by(2) {
            refuses(&lines(&[&line[..cut], "03450000"]), Frame);
        }
        refuses(&lines(&[&format!("{line}00"), "03450000"]), Frame);
    }
}

#[test]
fn refusal_3_order() {
    let (class, method, main) = ("01010000", "02010101000100004040", "03450000");
    assert!(read(lines(&[class, method, main]).as_bytes()).is_ok());
    assert!(read(lines(&[main]).as_bytes()).is_ok());
    let wrong: [&[&str]; 9] = [
        &[class],
        &[method],
        &[class, method],
        &[method, class, main],
        &[main, class, method],
        &[class, main, method],
        &[class, method, main, main],
        &[main, main],
        &[class, method, "01020000", method, main],
    ];
    for text in wrong {
        refuses(&lines(text), Order);
    }
}

#[test]
fn refusal_3_numbers_of_frames() {
    let classes =
        |count: u8| -> String { (1..=count).map(|n| format!("01{n:02X}0000\n")).collect() };
    let methods = |count: u8| -> String {
        let line = |n| format!("0201{n:02X}01000100004040\n");
        (1..=count).map(line).collect()
    };
    assert!(read(format!("{}03450000\n", classes(32)).as_bytes()).is_ok());
    refuses(&format!("{}03450000\n", classes(33)), Order);
    assert!(read(format!("{}{}03450000\n", classes(1), methods(64)).as_bytes()).is_ok());
    refuses(&format!("{}{}03450000\n", classes(1), methods(65)), Order);
}

#[test]
fn refusal_4_class_numbers_and_parents() {
    let main = "03450000";
    let wrong: [&[&str]; 8] = [
        &["01000000", main],
        &["01020000", main],
        &["01010000", "01010000", main],
        &["01010000", "01030000", main],
        &["01020000", "01010000", main],
        &["01010100", main],
        &["01010200", "01020000", main],
        &["01010000", "01020200", main],
    ];
    for text in wrong {
        refuses(&lines(text), Classes);
    }
}

#[test]
fn refusal_4_unknown_classes() {
    // Sound has classes 1 and 2; 3 is not known, wherever it stands.
    let changes = [
        (0, "010100010303"),
        (2, "020307 0103 0103 01 0103 4200 40"),
        (2, "020107 0303 0103 01 0103 4200 40"),
        (2, "020107 0103 0303 01 0103 4200 40"),
        (2, "020107 0103 0103 01 0303 4200 40"),
        (2, "020107 0103 0103 01 0103 450300 40"),
        (2, "020107 0103 0103 01 0103 4200 4300450300"),
        (4, "03 450300"),
        (4, "03 450001 450300"),
        (4, "03 440701 450000 450300"),
    ];
    for (place, line) in changes {
        refuses(&sound_with(place, line), Classes);
    }
}

#[test]
fn refusal_4_a_later_class_is_known() {
    assert!(read(b"010100010200\n01020000\n03450000\n").is_ok());
}

#[test]
fn refusal_4_owners_and_tags() {
    let with = |line: &str| lines(&["01010000", line, "03450000"]);
    refuses(&with("020001 0100 0100 00 4040"), Classes);
    for tag in ["01", "02"] {
        refuses(&lines(&[&format!("01010001 01{tag}"), "03450000"]), Classes);
        refuses(&with(&format!("020101 01{tag} 0103 00 4040")), Classes);
        refuses(&with(&format!("020101 0100 0100 01 01{tag} 4040")), Classes);
    }
    // Any tag is allowed as the second result.
    for tag in ["00", "01", "02", "03"] {
        let text = with(&format!("020101 0100 01{tag} 00 4040"));
        assert!(read(text.as_bytes()).is_ok());
    }
}

#[test]
fn refusal_4_fields_in_all_and_names() {
    // 2 + 2 fields pass, 2 + 3 do not.
    let more = |own: usize| {
        let own_fields = format!("010201{own:02X}{}", "0103".repeat(own));
        lines(&["01010002 0100 0100", &own_fields, "03450000"])
    };
    assert!(read(more(2).as_bytes()).is_ok());
    refuses(&more(3), Classes);
    // One name twice in a class, though the types agree; two classes may share it.
    let (one, other) = ("020105 0100 0100 00 4040", "020205 0100 0100 00 4040");
    refuses(&lines(&["01010000", one, one, "03450000"]), Classes);
    let shared = lines(&["01010000", "01020000", one, other, "03450000"]);
    assert!(read(shared.as_bytes()).is_ok());
}

#[test]
fn refusal_5_other_types_than_above() {
    // Class 3 stands two below class 1, which has the method.
    let above = "020107 0103 0103 01 0103 4200 40";
    let below = |line: &str| {
        let classes = ["010100010103", "01020100", "01030200"];
        lines(&[classes[0], classes[1], classes[2], above, line, "03450000"])
    };
    assert!(read(below("020307 0103 0103 01 0103 4040").as_bytes()).is_ok());
    for types in [
        "0100 0103 01 0103",
        "0203 0103 01 0103",
        "0103 0102 01 0103",
        "0103 0003 01 0103",
        "0103 0103 01 0100",
        "0103 0103 01 0003",
        "0103 0103 00",
        "0103 0103 02 0103 0103",
    ] {
        refuses(&below(&format!("020307 {types} 4040")), Override);
    }
    // The order of the method frames plays no part.
    let (lower, upper) = ("020207 0100 0103 00 4040", "020107 0103 0103 00 4040");
    let backwards = lines(&["010100010103", "01020100", lower, upper, "03450000"]);
    refuses(&backwards, Override);
}

#[test]
fn the_lowest_refusal_is_given_over_the_whole_text() {
    // Each text has the faults of all the refusals after its own too.
    let (five, four) = ("020207 0100 0103 00 4040", "0102FF00");
    let base = ["01010000", "01020100", "02010701030103004040"];
    let texts: [(&[&str], Refusal); 5] = [
        (&[base[0], base[1], base[2], five, "0341"], Override),
        (&[base[0], four, base[2], five, "0341"], Classes),
        (&[base[0], base[2], four, five, "0341"], Order),
        (&[base[0], base[2], four, five, "0346"], Frame),
        (&[base[0], base[2], four, five, "034"], LineForm),
    ];
    for (text, refusal) in texts {
        refuses(&lines(text), refusal);
    }
}

#[test]
fn variables_out_of_place_are_no_fault_of_the_text() {
    for main in ["0340", "0341", "034200", "0342FF"] {
        assert!(read(lines(&[main]).as_bytes()).is_ok());
        assert_eq!(check(lines(&[main]).as_bytes()), Err(Main));
        assert_eq!(trial(5, lines(&[main]).as_bytes()), (lines(&["0701"]), 5));
    }
    for body in ["4140", "420040", "404200", "42FF40"] {
        let text = lines(&[
            "01010000",
            &format!("0201010103010300{body}"),
            "03440100450100",
        ]);
        assert!(read(text.as_bytes()).is_ok());
        assert_eq!(check(text.as_bytes()), Err(Method));
    }
}
