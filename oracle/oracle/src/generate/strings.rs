//! Quoted strings to unquote, and identifiers.

use super::rng::Rng;
use std::sync::LazyLock;

const MARKS: [&str; 4] = ["'''", "'", "\"\"\"", "\""];

/// All characters with the property White_Space.
const WHITE_SPACE: [char; 25] = [
    '\t', '\n', '\u{b}', '\u{c}', '\r', ' ', '\u{85}', '\u{a0}', '\u{1680}', '\u{2000}',
    '\u{2001}', '\u{2002}', '\u{2003}', '\u{2004}', '\u{2005}', '\u{2006}', '\u{2007}', '\u{2008}',
    '\u{2009}', '\u{200a}', '\u{2028}', '\u{2029}', '\u{202f}', '\u{205f}', '\u{3000}',
];

/// Neighbours of those in the code table, and some that look like white space.
const NOT_WHITE_SPACE: [char; 16] = [
    '\u{8}', '\u{e}', '\u{1c}', '\u{1f}', '!', '\u{7f}', '\u{84}', '\u{86}', '\u{9f}', '\u{a1}',
    '\u{180e}', '\u{1fff}', '\u{200b}', '\u{2060}', '\u{3001}', '\u{feff}',
];

/// What may stand between the braces of `\u{..}`, and what may not.
const CODES: [&str; 40] = [
    "",
    "0",
    "1",
    "41",
    "7f",
    "80",
    "fF",
    "7FF",
    "800",
    "D7FF",
    "D800",
    "DBFF",
    "DC00",
    "DFFF",
    "E000",
    "FFFE",
    "FFFF",
    "10000",
    "1F600",
    "10FFFF",
    "110000",
    "FFFFFF",
    "00110000",
    "7FFFFFFF",
    "80000000",
    "FFFFFFFF",
    "0000D7FF",
    "0000D800",
    "0010FFFF",
    "000000041",
    "0000000041",
    "FFFFFFFFF",
    "x",
    "g",
    "G",
    "-1",
    "+1",
    " 41",
    "4 1",
    "é",
];

static QUOTED: LazyLock<Vec<Vec<u8>>> = LazyLock::new(|| {
    let mut sheet = Sheet::default();
    sheet.marks();
    sheet.escapes();
    sheet.unicode_escapes();
    sheet.escaped_line_feeds();
    sheet.carriage_returns();
    sheet.line_feeds();
    sheet.no_text();
    sheet.texts
});

/// Every edge of unquoting.
pub fn quoted_sheet() -> &'static [Vec<u8>] {
    &QUOTED
}

#[derive(Default)]
struct Sheet {
    texts: Vec<Vec<u8>>,
}

impl Sheet {
    fn add(&mut self, text: impl Into<Vec<u8>>) {
        self.texts.push(text.into());
    }

    /// The same inside in all four kinds of quotes.
    fn add_in_all(&mut self, inside: &str) {
        for mark in MARKS {
            self.add(format!("{mark}{inside}{mark}"));
        }
    }

    /// Every opening with every closing, none and foreign ones too.
    fn marks(&mut self) {
        let marks = [
            "", "'", "''", "'''", "''''", "\"", "\"\"", "\"\"\"", "\"\"\"\"", "`", " '",
        ];
        for open in marks {
            for close in marks {
                for inside in ["", "a", "a'b", "a\"b", "\n", "\na\n", "\r\na", "\\"] {
                    self.add(format!("{open}{inside}{close}"));
                }
            }
        }
    }

    fn escapes(&mut self) {
        let foreign = ['é', '中', '😀', '\u{85}', '\u{2028}'];
        for c in (0..128u8).map(char::from).chain(foreign) {
            self.add_in_all(&format!("\\{c}"));
            self.add_in_all(&format!("x\\{c}y"));
        }
        for inside in [
            "\\",
            "\\\\",
            "\\\\\\",
            "a\\",
            "\\\\n",
            "\\\\\\n",
            "\\ ",
            "\\n\\t\\r",
        ] {
            self.add_in_all(inside);
        }
    }

    fn unicode_escapes(&mut self) {
        for code in CODES {
            self.add_in_all(&format!("\\u{{{code}}}"));
            self.add_in_all(&format!("a\\u{{{code}}}b"));
            self.add_in_all(&format!("\\u{{_{code}_}}"));
            self.add_in_all(&format!("\\u{{{code}"));
            self.add_in_all(&format!("\\u{{{code}_"));
        }
        for digit in ["0", "1", "9", "a", "f", "A", "F", "_", "0_", "_0"] {
            for count in 0..=10 {
                let digits = digit.repeat(count);
                self.add_in_all(&format!("\\u{{{digits}}}"));
                self.add_in_all(&format!("\\u{{{digits}x}}"));
                self.add_in_all(&format!("\\u{{{digits}"));
            }
        }
        for inside in [
            "\\u",
            "\\u}",
            "\\u41",
            "\\u {41}",
            "\\u\n{41}",
            "\\u[41]",
            "\\u{{41}}",
            "\\u{41}}",
            "\\u{\\}",
            "\\u{4\r1}",
            "\\u\r{41}",
            "\\u{41}\\u{42}",
            "\\u{4\n1}",
            "\\U{41}",
            "\\u{}\\u{}",
            "\\u{ＡＢ}",
            "\\u{١}",
        ] {
            self.add_in_all(inside);
        }
    }

    fn escaped_line_feeds(&mut self) {
        for c in WHITE_SPACE.into_iter().chain(NOT_WHITE_SPACE) {
            self.add_in_all(&format!("a\\\n{c}b"));
            self.add_in_all(&format!("a\\\n {c}\t{c} b"));
            self.add_in_all(&format!("\\\n{c}"));
            self.add_in_all(&format!("\\\n{c}\\\n{c}x"));
            self.add_in_all(&format!("\\{c}"));
            self.add_in_all(&format!("\\\r\n{c}b"));
        }
        for inside in [
            "\\\n",
            "\\\n\\",
            "\\\n\\n",
            "\\\n\n\n a",
            "\\\n\"",
            "\\ \n a",
            "\\\\\n a",
        ] {
            self.add_in_all(inside);
        }
    }

    fn carriage_returns(&mut self) {
        for mark in MARKS {
            for inside in ["", "ab", "\nab", "\\n", "\\u{41}", "\\\n b"] {
                let text = format!("{mark}{inside}{mark}");
                for place in 0..=text.len() {
                    let (front, back) = text.split_at(place);
                    self.add(format!("{front}\r{back}"));
                    self.add(format!("{front}\r\r\n{back}"));
                }
            }
        }
    }

    fn line_feeds(&mut self) {
        for inside in [
            "\n", "a\n", "\na", "a\nb", "\n\n", "\n\\q", "\\q\n", "\r\n", "\n\r\n",
        ] {
            self.add_in_all(inside);
        }
    }

    fn no_text(&mut self) {
        for text in [
            &b""[..],
            b"\r",
            b"\r\r",
            b"a",
            b"\xFF",
            b"\"\xFF\"",
            b"'\xC3'",
            b"'\xED\xA0\x80'",
            b"\"a\\\xC3\"",
            b"\"\xF4\x8F\xBF\xBF\"",
            b"\"\xF4\x90\x80\x80\"",
        ] {
            self.add(text);
        }
    }
}

const PIECES: [&str; 36] = [
    "a",
    "é",
    "😀",
    " ",
    "\n",
    "\r",
    "\r\n",
    "\t",
    "'",
    "\"",
    "''",
    "\"\"",
    "\\\\",
    "\\n",
    "\\t",
    "\\\"",
    "\\'",
    "\\e",
    "\\v",
    "\\$",
    "\\`",
    "\\/",
    "\\ ",
    "\\\n",
    "\\\n ",
    "\\\n\u{2003}",
    "\\\n\u{200b}",
    "\\q",
    "\\",
    "\\u",
    "\\u{",
    "}",
    "_",
    "{",
    "4",
    "\\u{1F6_00}",
];

/// Another edge of the sheet or a random string.
pub fn quoted(rng: &mut Rng) -> Vec<u8> {
    if rng.chance(30) {
        return rng.pick_from(quoted_sheet()).clone();
    }
    let mark = rng.pick(&MARKS);
    let mut text = mark.to_owned();
    for _ in 0..rng.below(7) {
        match rng.below(8) {
            0 => text += &format!("\\u{{{}}}", rng.pick(&CODES)),
            // Mostly harmless pieces, so that strings are often unquoted to their end.
            1..5 => text += rng.pick(&PIECES[..24]),
            _ => text += rng.pick(&PIECES),
        }
    }
    text += if rng.chance(95) {
        mark
    } else {
        rng.pick(&MARKS)
    };
    let mut bytes = text.into_bytes();
    if rng.chance(1) {
        let place = rng.below(bytes.len());
        bytes[place] = 0xC3;
    }
    bytes
}

static IDENTIFIERS: LazyLock<Vec<Vec<u8>>> = LazyLock::new(|| {
    let mut texts: Vec<Vec<u8>> = [
        "",
        "true",
        "false",
        "null",
        "True",
        "FALSE",
        "nul",
        "nulll",
        "true_",
        "_true",
        "tru",
        "truefalse",
        "a b",
        "a-b",
        "é",
        "aé",
        "ａ",
        "ª",
        "K",
        "_",
        "__",
        "_0",
        "0_",
        "a\n",
        "\na",
        "a\0",
        "true\n",
        " true",
    ]
    .iter()
    .map(|text| text.as_bytes().to_vec())
    .collect();
    // Every byte alone, first and last.
    for byte in 0..=255 {
        texts.push(vec![byte]);
        texts.push(vec![byte, b'a']);
        texts.push(vec![b'a', byte]);
    }
    texts
});

/// Keywords, nearly keywords, and every byte in every position.
pub fn identifier_sheet() -> &'static [Vec<u8>] {
    &IDENTIFIERS
}

pub fn identifier(rng: &mut Rng) -> Vec<u8> {
    if rng.chance(30) {
        return rng.pick_from(identifier_sheet()).clone();
    }
    let pieces = [
        "a", "Z", "_", "0", "9", "true", "false", "null", "e", "é", "-", " ", "ſ", "x1",
    ];
    // Mostly only what an identifier is made of.
    let kinds = if rng.chance(70) { 9 } else { pieces.len() };
    let count = rng.below(6);
    rng.join(&pieces[..kinds], count).into_bytes()
}
