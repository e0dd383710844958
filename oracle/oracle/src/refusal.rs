//! Refusals, and the checks that come before the original is asked.

/// The longest text that is read, in bytes.
pub const MAX_TEXT: usize = 65_535;

/// The longest setting, in bytes.
pub const MAX_SETTING: usize = 16;

pub const OVERLONG: u32 = 1;
pub const GARBLED: u32 = 2;
pub const STRAY: u32 = 3;
pub const TOO_DEEP: u32 = 4;
pub const MISSING_VALUE: u32 = 5;
pub const UNBALANCED_BRACKET: u32 = 6;
pub const UNBALANCED_BRACE: u32 = 7;
pub const UNBALANCED_PARENTHESIS: u32 = 8;
pub const NAMELESS: u32 = 9;
pub const NO_VALUE: u32 = 10;
pub const MISMATCH: u32 = 11;
pub const CUT_OFF: u32 = 12;
pub const SURPLUS: u32 = 13;
pub const NO_SPACE: u32 = 14;
pub const STALE: u32 = 15;
pub const BAD_SETTINGS: u32 = 16;
pub const NO_OPENING_QUOTE: u32 = 17;
pub const NO_CLOSING_QUOTE: u32 = 18;
pub const LINE_BREAK: u32 = 19;
pub const ENDS_IN_BACKSLASH: u32 = 20;
pub const UNKNOWN_ESCAPE: u32 = 21;
pub const NO_OPENING_BRACE: u32 = 22;
pub const NINTH_DIGIT: u32 = 23;
pub const FOREIGN_CHARACTER: u32 = 24;
pub const NO_CLOSING_BRACE: u32 = 25;
pub const NO_SCALAR_VALUE: u32 = 26;
pub const NO_BYTE: u32 = 27;
pub const NO_PATHS: u32 = 28;

/// A refusal of document 01: its number, its place in bytes, and for a token that is not the
/// expected one the kinds expected and found, from 1 in the order of `TokenKind`, else 0.
#[derive(Clone, Copy, Debug, PartialEq, Eq)]
pub struct Refusal {
    pub number: u32,
    pub start: u32,
    pub end: u32,
    pub expected: u32,
    pub found: u32,
}

impl Refusal {
    pub fn placed(number: u32, start: usize, end: usize) -> Self {
        Self {
            number,
            start: word(start),
            end: word(end),
            expected: 0,
            found: 0,
        }
    }

    pub fn unplaced(number: u32) -> Self {
        Self::placed(number, 0, 0)
    }

    pub fn with_kinds(self, expected: u32, found: u32) -> Self {
        Self {
            expected,
            found,
            ..self
        }
    }

    /// In document 01's order: number, start, end, expected kind, found kind.
    pub fn numbers(self) -> [u32; 5] {
        [self.number, self.start, self.end, self.expected, self.found]
    }
}

/// A place within a text of checked length.
pub fn word(place: usize) -> u32 {
    u32::try_from(place).expect("places are within a text of checked length")
}

/// Refusals 1 and 2.
pub fn check_text(text: &[u8]) -> Result<&str, Refusal> {
    if text.len() > MAX_TEXT {
        return Err(Refusal::placed(OVERLONG, MAX_TEXT, MAX_TEXT));
    }
    std::str::from_utf8(text).map_err(|error| {
        let place = error.valid_up_to();
        Refusal::placed(GARBLED, place, place)
    })
}

/// Refusal 16.
pub fn check_setting(setting: &[u8]) -> Result<String, Refusal> {
    if setting.len() > MAX_SETTING {
        return Err(Refusal::unplaced(BAD_SETTINGS));
    }
    match std::str::from_utf8(setting) {
        Ok(setting) => Ok(setting.to_owned()),
        Err(_) => Err(Refusal::unplaced(BAD_SETTINGS)),
    }
}
