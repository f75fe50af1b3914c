//! Document 01's cases A to J through the proved engine, from the bytes of a text to the bytes written. The texts are
//! written out from the document's words, and the outputs are its own; each run is compared with the reference engine too.

use differential::compare::output;
use reference::calls::Mode;

/// A's text and output stand whole in document 01.
const A: &str = "010100010003
01020000
02020101030103004402004041
02020201000102004501014401004041
03440100450200
";

fn checked(fuel: u16, text: &str) -> (String, u16) {
    output(Mode::Checked, fuel, text.as_bytes())
}

/// Reports that document 01 gives without a verdict line are those of the trial run too.
fn trial(fuel: u16, text: &str) -> (String, u16) {
    output(Mode::Trial, fuel, text.as_bytes())
}

#[test]
fn a_and_b_three_units_are_enough() {
    // B: "A with fuel 3 gives the same report"; with C, one unit less, so 3 are spent.
    for fuel in [1_000, 3] {
        let report = "0500010100\n".to_string();
        assert_eq!(
            checked(fuel, A),
            (format!("08000103\n{report}"), fuel - 3),
            "fuel {fuel}"
        );
        assert_eq!(trial(fuel, A), (report, fuel - 3), "fuel {fuel}");
    }
}

#[test]
fn c_two_units_are_not() {
    assert_eq!(checked(2, A), ("08000103\n0702\n".to_string(), 0));
    assert_eq!(trial(2, A), ("0702\n".to_string(), 0));
}

#[test]
fn d_unguarded_recursion() {
    // "A method H- with H- whose left side is this.m() and right side res: 06." H is 01, m is 01.
    let text = "01010000\n0201010103010300 44010040 41\n03440100450100\n".replace(' ', "");
    assert_eq!(checked(1_000, &text).0, "08000103\n06\n");
    assert_eq!(trial(1_000, &text).0, "06\n");
}

/// Case E: C is 01 with a field C+, H is 02, a pair of Cs is 03. Methods 01 and 02 make X = new C(Y = new C(X)), method
/// 03 makes Z = new C(Z); method 04 calls itself with a field of its argument, or makes an H when that is met again.
fn e(main: &str) -> String {
    let classes = "010100010100\n01020000\n01030002 01000100\n";
    let ring = |name: &str, next: &str| format!("0202{name} 0100 0102 00 450101 44{next}0040 41\n");
    let again = "020204 0200 0200 01 0100 44040140 43004200 450200\n";
    let methods = ring("01", "02") + &ring("02", "01") + &ring("03", "03") + again;
    format!("{classes}{methods}03{main}\n").replace(' ', "")
}

#[test]
fn e_two_ways_to_write_one_value() {
    // "One value, one object": the ring of one C, however it was made.
    for ring in ["440100450200", "440200450200", "440300450200"] {
        assert_eq!(checked(1_000, &e(ring)).0, "08000100\n0500010100\n");
    }
    // Side by side in a pair they have one number.
    let pair = e("450302 440100450200 440300450200");
    assert_eq!(
        checked(1_000, &pair).0,
        "08000300\n050003020101\n0501010101\n"
    );
    // X's field is Y, which is X: three calls make X, the fourth is 04 with X, the fifth is the same call again.
    let again = e("440401450200 440100450200");
    assert_eq!(
        checked(1_000, &again),
        ("08000200\n05000200\n".to_string(), 995)
    );
}

#[test]
fn f_refused_checked_and_undetermined_on_trial() {
    // L is 01, E 02, D 03 with field L+, H 04; k is 0B, m is 0D. "Refused 6, and 06 on trial."
    let text = "01010000
01020100
010301010100
01040000
02040B 0100 0102 00 4300 440D0040 41
02040D 0300 0300 00 450301 440B0040 450301 450200
03440B00450400
"
    .replace(' ', "");
    assert_eq!(checked(1_000, &text), ("0806\n".to_string(), 1_000));
    assert_eq!(trial(1_000, &text).0, "06\n");
}

#[test]
fn g_a_field_of_object() {
    // "Field 0 of new Object(), on trial, 0701"; Object has no field 0, so main has no type.
    let text = "034300450000\n";
    assert_eq!(trial(1_000, text), ("0701\n".to_string(), 1_000));
    assert_eq!(checked(1_000, text), ("0807\n".to_string(), 1_000));
}

/// Case H: L is 01, C 02 below it with field L+, H 03. Method 01 lays 5 Cs round its argument, 02 calls it 5 times, and
/// main has 30 so round an L and `more` Cs laid by hand.
fn h(more: usize) -> String {
    let laid = format!("020301 0100 0100 01 0100 {}4200 4200\n", "450201".repeat(5));
    let five_times = format!(
        "020302 0100 0100 01 0100 {}4200 4200\n",
        "44010140".repeat(5)
    );
    let main = format!(
        "03 440201450300 440101450300 {}450100\n",
        "450201".repeat(more)
    );
    let classes = "01010000\n010201010100\n01030000\n";
    format!("{classes}{laid}{five_times}{main}").replace(' ', "")
}

#[test]
fn h_32_objects_and_33() {
    // Root first: C 00 holds C 01, and so on to L at 1F.
    let cells: String = (0..31)
        .map(|number| format!("05{number:02X}0201{:02X}\n", number + 1))
        .collect();
    let report = format!("08000100\n{cells}051F0100\n");
    assert_eq!(checked(1_000, &h(1)).0, report);
    assert_eq!(checked(1_000, &h(2)).0, "08000100\n0704\n");
}

#[test]
fn i_the_ring_of_classes_3_and_5() {
    // 03 holds a 05 and 05 a 03; 04 has the methods, 01 for 03 and 02 for 05.
    let text = "01010000
01020000
010300010500
01040000
010500010300
020401 0300 0302 00 450301 44020040 41
020402 0500 0502 00 450501 44010040 41
03440100450400
"
    .replace(' ', "");
    let report = "08000300\n0500030101\n0501050100\n";
    assert_eq!(checked(1_000, &text).0, report);
}

/// Case J: `count` methods, each calling the next; the last makes an object.
fn j(count: usize) -> String {
    let call = |name: usize| {
        let left = if name < count {
            format!("44{:02X}0040", name + 1)
        } else {
            "450100".to_string()
        };
        format!("0201{name:02X}0100010000{left}40\n")
    };
    let methods: String = (1..=count).map(call).collect();
    format!("01010000\n{methods}03440100450100\n")
}

#[test]
fn j_16_open_calls_and_the_17th() {
    assert_eq!(checked(1_000, &j(16)).0, "08000100\n05000100\n");
    assert_eq!(checked(1_000, &j(17)).0, "08000100\n0703\n");
    // The 17th needs its unit first: "out of fuel if no fuel is left" comes before "too deep".
    assert_eq!(checked(17, &j(17)), ("08000100\n0703\n".to_string(), 0));
    assert_eq!(checked(16, &j(17)), ("08000100\n0702\n".to_string(), 0));
}
