//! Sheets with what the documents say that they print: the examples, and the edge cases of docs/DAY-SHEET.md.

use std::fs;
use std::path::Path;

use plain::making::random::Random;
use plain::making::{days, loads, sheets};
use plain::sheet::{run, MOST_BYTES};
use plain::tally::Tally;

fn first_line(sheet: &str) -> String {
    run(sheet.as_bytes())
        .lines()
        .next()
        .unwrap_or_default()
        .to_string()
}

#[test]
fn the_examples() {
    let directory = Path::new(env!("CARGO_MANIFEST_DIR")).join("../examples");
    for name in ["default", "contribution"] {
        let sheet = fs::read(directory.join(format!("{name}.sheet"))).unwrap();
        let printed = fs::read_to_string(directory.join(format!("{name}.out"))).unwrap();
        assert_eq!(run(&sheet), printed, "{name}");
    }
}

#[test]
fn a_member_without_an_account() {
    let sheet = "AFG 1\nH 0 0\nH 1 1000\nH 10 2000000\nJ 10\nJ 11\nI 101\nL 10\n";
    assert_eq!(
        run(sheet.as_bytes()),
        "5 J 2000000\n6 J N 52 h\n7 I 101\n8 L 2000101\nend 0 0 0\n"
    );
}

#[test]
fn a_stop_with_a_case_open() {
    let sheet = "AFG 1\nH 0 0\nH 10 10000000\nJ 10\nD 10\njunk\nC\n";
    assert_eq!(
        run(sheet.as_bytes()),
        "4 J 2000000\n5 D 1\n6 ? N 24 s\n7 C 1\nend 2000000 2000000 1\n"
    );
}

#[test]
fn first_lines() {
    for sheet in ["", "AFG 1", "AFG 2\n", "AFG  1\n", "AFG 1 \n", "AFG 1\r\n"] {
        assert_eq!(
            run(sheet.as_bytes()),
            "1 ? N 23 s\nend 0 0 0\n",
            "{sheet:?}"
        );
    }
    assert_eq!(run(b"AFG 1\n"), "2 O N 52 h\nend 0 0 0\n");
}

#[test]
fn the_number_of_bytes() {
    let mut sheet = b"AFG 1\nH 0 0\n".to_vec();
    sheet.resize(MOST_BYTES, b'\n');
    assert_eq!(run(&sheet), "3 ? N 24 s\nend 0 0 0\n");
    sheet.push(b'\n');
    assert_eq!(run(&sheet), "1 ? N 19 s\nend 0 0 0\n");
    sheet[0] = b'x';
    assert_eq!(run(&sheet), "1 ? N 19 s\nend 0 0 0\n");
}

#[test]
fn heads() {
    let cases = [
        ("H 1 x\n", "2 ? N 24 s"),
        ("Hello\n", "2 ? N 24 s"),
        ("H 0 7", "2 ? N 24 s"),
        ("H 0 0\nH 0 0\nH 5\n", "4 ? N 24 s"),
        ("H 5 0\nH 5 0\n", "4 O N 26 h"),
        ("H 0 1\njunk\n", "3 O N 43 b"),
        ("J 10", "2 O N 52 h"),
        ("\n", "2 O N 52 h"),
        ("P PLAAAAAAAAA1 1 0 1\nH 0 0\n", "2 O N 52 h"),
        ("H 4294967306 0\n", "3 O N 26 h"),
        ("H 70000 0\n", "3 O N 26 h"),
        ("H 10 10000000000\n", "2 ? N 24 s"),
    ];
    for (head, printed) in cases {
        assert_eq!(first_line(&format!("AFG 1\n{head}")), printed, "{head:?}");
    }
    let full: String = (0..128).map(|account| format!("H {account} 0\n")).collect();
    assert_eq!(
        first_line(&format!("AFG 1\n{full}H 128 0\n")),
        "130 ? N 19 s"
    );
    assert_eq!(first_line(&format!("AFG 1\n{full}H\n")), "130 ? N 24 s");
    assert_eq!(
        run(format!("AFG 1\n{full}C\nH 128 0\n").as_bytes()),
        "130 C N 37 b\n131 ? N 24 s\nend 0 0 0\n"
    );
}

/// Lines that are not well formed, or do not belong below the head.
const BAD: &[&str] = &[
    "\n",
    " ",
    "C\r\n",
    "C 1\n",
    "C \n",
    "J  10\n",
    "J\n",
    "J 010\n",
    "I 00\n",
    "I -1\n",
    "I 1,000\n",
    "I 10000000000\n",
    "T 10 PLAAAAAAAAA1 B 1 1\n",
    "T 10 PLAAAAAAAAA1 k 1 1\n",
    "c\n",
    "P PLAAAAAAAAA 1 1 1\n",
    "P PLAAAAAAAAA11 1 1 1\n",
];

/// Calls that are refused in a house with account 0 alone.
const REFUSED: &[(&str, &str)] = &[
    ("J 9", "J N 11 b"),
    ("J 10000", "J N 11 b"),
    ("L 4294967306", "L N 11 b"),
    ("X 70000 80000 5", "X N 52 h"),
    ("X 70000 70000 5", "X N 22 h"),
    ("X 4294967296 1 5", "X N 52 h"),
    ("X 0 0 0", "X N 21 b"),
    ("X 7 7 0", "X N 12 h"),
    ("I 0", "I N 12 b"),
    ("I 4000000001", "I N 12 b"),
    ("X 1 11 4000000001", "X N 12 h"),
    ("W 0", "W N 37 b"),
    ("B 9999999999", "B N 37 b"),
    ("C", "C N 37 b"),
];

#[test]
fn lines_below_the_head() {
    for line in BAD {
        assert_eq!(
            first_line(&format!("AFG 1\nH 0 0\n{line}")),
            "3 ? N 24 s",
            "{line:?}"
        );
    }
    for (line, printed) in REFUSED {
        assert_eq!(
            first_line(&format!("AFG 1\nH 0 0\n{line}\n")),
            format!("3 {printed}"),
            "{line:?}"
        );
    }
}

#[test]
fn updates_take_the_lines_above() {
    let head = "AFG 1\nH 0 0\nH 10 9999999\nJ 10\n";
    let lines = "T 10 PLAAAAAAAAA1 K 1 1\nT 11 x\tbadbad\r\0xx K 0 0\nU 10\nP PLAAAAAAAAA1 1 1 1\nU 10\nU 11\n";
    let printed = "4 J 2000000\n7 U N 17 c\n9 U 2000000\n10 U N 13 c\nend 2000000 2000000 1\n";
    assert_eq!(run(format!("{head}{lines}").as_bytes()), printed);
    let many = "T 10 PLAAAAAAAAA1 K 1 1\n".repeat(129) + &"T 9 PLAAAAAAAAA1 K 1 1\n".repeat(129);
    let text = run(format!("AFG 1\nH 0 0\n{many}U 10\nU 9\nU 11\n").as_bytes());
    assert_eq!(
        text,
        "261 U N 19 c\n262 U N 11 b\n263 U N 31 b\nend 0 0 0\n"
    );
}

#[test]
fn every_refusal_comes_up() {
    let mut tally = Tally::default();
    for place in 0..1_000 {
        tally.count(&run(&sheets::sheet(1, place)));
    }
    assert!(!tally.text().contains("never"), "{}", tally.text());
}

#[test]
fn days_are_mostly_accepted() {
    let mut tally = Tally::default();
    for seed in 0..200 {
        let sheet = days::quiet(&mut Random::new(seed)).into_sheet();
        tally.count(&run(&sheet));
    }
    let (answered, refused): (u64, u64) =
        (tally.answered.values().sum(), tally.refused.values().sum());
    assert!(
        answered > 9 * refused,
        "{answered} answered, {refused} refused"
    );
}

#[test]
fn the_loads_are_run_to_their_end() {
    for (name, sheet) in &loads::all()[1..] {
        assert!(sheet.len() > 65_000 && sheet.len() <= MOST_BYTES, "{name}");
        assert!(!run(sheet).contains('?'), "{name}");
    }
}
