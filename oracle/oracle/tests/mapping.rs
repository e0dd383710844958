//! Each number that the original's errors map to is met.

use oracle::{read, unquote};

/// Text; number, start, end, kind expected, kind found.
const READING: [(&str, [u32; 5]); 25] = [
    ("é#", [3, 0, 2, 0, 0]),
    ("'", [3, 0, 1, 0, 0]),
    ("[a: #", [10, 2, 3, 0, 0]),
    ("a:", [5, 2, 2, 0, 0]),
    ("a: ]", [6, 3, 4, 0, 0]),
    ("a: }", [7, 3, 4, 0, 0]),
    ("a: )", [8, 3, 4, 0, 0]),
    ("(", [9, 0, 1, 0, 0]),
    ("[(", [9, 1, 2, 0, 0]),
    (",", [10, 0, 1, 0, 0]),
    ("[:", [10, 1, 2, 0, 0]),
    ("[1}", [11, 2, 3, 3, 5]),
    ("{a:1]", [11, 4, 5, 5, 3]),
    ("\"A\"(]", [11, 4, 5, 7, 3]),
    ("a:1 b {", [11, 6, 7, 8, 4]),
    ("a:1 b c", [11, 6, 7, 8, 10]),
    ("a:1 b 1", [11, 6, 7, 8, 11]),
    ("a:1 b ''", [11, 6, 8, 8, 13]),
    ("a:1 b \"\"", [11, 6, 8, 8, 12]),
    ("a:1 b \"\"\"\"\"\"", [11, 6, 12, 8, 14]),
    ("a:1 b ''''''", [11, 6, 12, 8, 15]),
    ("a:1 b\n//", [11, 6, 8, 8, 1]),
    ("a:1 b,", [11, 5, 6, 8, 9]),
    ("a:1 b", [12, 4, 5, 8, 0]),
    ("a:1]", [13, 3, 4, 0, 0]),
];

#[test]
fn reading() {
    for (text, [number, start, end, expected, found]) in READING {
        let refusal = read(text.as_bytes()).expect_err(text);
        let met = [
            refusal.number,
            refusal.start,
            refusal.end,
            refusal.expected,
            refusal.found,
        ];
        assert_eq!(met, [number, start, end, expected, found], "{text:?}");
    }
    let deep = read(&[b'['; 65]).expect_err("too deep");
    assert_eq!((deep.number, deep.start, deep.end), (4, 63, 64));
}

#[test]
fn reading_meets_every_number() {
    for number in (3..=13).filter(|&number| number != 4) {
        assert!(
            READING.iter().any(|(_, answer)| answer[0] == number),
            "no text for {number}"
        );
    }
}

const UNQUOTING: [(&str, u32); 24] = [
    ("", 17),
    ("a", 17),
    ("'''", 18),
    ("'", 18),
    ("'a", 18),
    ("\"\"\"", 18),
    ("\"", 18),
    ("\"\"\"\"\"", 18),
    ("'\n'", 19),
    ("\"\n\"", 19),
    ("\"\\\n\"", 19),
    ("\"\\\"", 20),
    ("\"\\q\"", 21),
    ("\"\"\"\\é\"\"\"", 21),
    ("\"\\u\"", 22),
    ("\"\\u41\"", 22),
    ("\"\\u{000000041}\"", 23),
    ("\"\\u{FFFFFFFFF\"", 23),
    ("\"\\u{x}\"", 24),
    ("\"\\u{é}\"", 24),
    ("\"\\u{41\"", 25),
    ("\"\\u{D800}\"", 26),
    ("\"\\u{110000}\"", 26),
    ("\"\\u{FFFFFFFF}\"", 26),
];

#[test]
fn unquoting() {
    for (text, number) in UNQUOTING {
        let refusal = unquote(text.as_bytes()).expect_err(text);
        let place = (refusal.start, refusal.end);
        assert_eq!((refusal.number, place), (number, (0, 0)), "{text:?}");
    }
    for number in 17..=26 {
        assert!(
            UNQUOTING.iter().any(|&(_, answer)| answer == number),
            "no text for {number}"
        );
    }
}
