//! The texts on which the lexers are compared.

use oracle::Case;
use oracle::generate::{Kind, generate};

/// Alphabets with the longest texts over them: what decides about strings and comments. The first
/// is wide, the others are long enough for a run of eight bytes and its end.
const ALPHABETS: [(&[&str], usize); 4] = [
    (&["\"", "'", "\\", "\n", "a", "/", "é"], 6),
    (&["\"", "\\", "\n", "é"], 9),
    (&["'", "/", "\n", "a"], 9),
    (&["a", "1", "-", ".", "_", " ", ":", "é"], 5),
];

/// All texts over each alphabet up to its longest.
pub fn each_short(mut check: impl FnMut(&str)) {
    for (alphabet, longest) in ALPHABETS {
        for len in 0..=longest {
            each_over(alphabet, len, &mut String::new(), &mut check);
        }
    }
}

/// The text with `len` more symbols, in every way. Leaves the text as it was.
fn each_over(alphabet: &[&str], len: usize, text: &mut String, check: &mut impl FnMut(&str)) {
    if len == 0 {
        check(text);
        return;
    }
    for symbol in alphabet {
        text.push_str(symbol);
        each_over(alphabet, len - 1, text, check);
        text.truncate(text.len() - symbol.len());
    }
}

/// So many texts of pieces, and the texts of so many of the oracle's cases that are UTF-8 and not
/// too long for it.
pub fn each_random(count: u64, seed: u64, mut check: impl FnMut(&str)) {
    let mut random = Random::new(seed);
    for _ in 0..count {
        check(&pieces(&mut random));
    }
    for case in generate(Kind::All, count as usize, seed) {
        for text in texts(case) {
            if let Ok(text) = String::from_utf8(text)
                && text.len() <= 65_535
            {
                check(&text);
            }
        }
    }
}

fn texts(case: Case) -> Vec<Vec<u8>> {
    match case {
        Case::Read(text)
        | Case::Format(text, _)
        | Case::Unquote(text)
        | Case::Identifier(text)
        | Case::Tokens(text) => vec![text],
        Case::Compare(first, second) => vec![first, second],
    }
}

const PIECES: [&str; 40] = [
    "\"", "\"", "\"\"\"", "'", "'", "'''", "\\", "\\\"", "\\n", "\n", "\r", "\t", "\x0c", " ", " ",
    "/", "//", "// c\n", "[", "]", "{", "}", "(", ")", ":", ":", ",", "a", "key", "_x1", "1",
    "-2.5e", "+", ".", "é", "\u{2028}", "😀", "#", "\0", "\x7f",
];

/// Pieces in any order, of some neighbouring kinds only, so that long runs come about.
fn pieces(random: &mut Random) -> String {
    let longest = [8, 30, 100, 400][random.below(4)];
    let first = random.below(PIECES.len());
    let kinds = 1 + random.below(PIECES.len());
    (0..random.below(longest))
        .map(|_| PIECES[(first + random.below(kinds)) % PIECES.len()])
        .collect()
}

/// Random numbers, the same for the same seed: xorshift64.
struct Random {
    state: u64,
}

impl Random {
    fn new(seed: u64) -> Self {
        // Odd, since the state 0 would stay 0.
        Self {
            state: seed.wrapping_mul(2) + 1,
        }
    }

    fn below(&mut self, limit: usize) -> usize {
        self.state ^= self.state << 13;
        self.state ^= self.state >> 7;
        self.state ^= self.state << 17;
        (self.state % limit as u64) as usize
    }
}
