//! Layouts under many kinds of settings.

use super::rng::Rng;
use super::{tree, wild};
use crate::calls::Options;
use crate::protocol::Case;

const SETTINGS: [&[u8]; 30] = [
    b"",
    b"\t",
    b"\n",
    b" ",
    b": ",
    b"  ",
    b"    ",
    b":",
    b"=",
    b"\r\n",
    b"\r",
    b"\0",
    b"//",
    b"// x\n",
    b"\n// ",
    b"[",
    b"\"",
    b"0123456789abcdef",
    b"0123456789abcdefg",
    b"                ",
    b"                 ",
    b"\xC3\xA9",
    b"\xC3\xA9\xC3\xA9\xC3\xA9\xC3\xA9\xC3\xA9\xC3\xA9\xC3\xA9\xC3\xA9",
    b"0\xC3\xA9\xC3\xA9\xC3\xA9\xC3\xA9\xC3\xA9\xC3\xA9\xC3\xA9\xC3\xA9",
    b"\xF0\x9F\x98\x80\xF0\x9F\x98\x80\xF0\x9F\x98\x80\xF0\x9F\x98\x80",
    b"\xFF",
    b"\xC3",
    b"0123456789abcde\xC3",
    b"\xED\xA0\x80",
    b"\xE2\x80\xA8",
];

pub fn case(rng: &mut Rng) -> Case {
    let text = match rng.below(10) {
        0 => wild::damaged(rng),
        1 => b"{a:1}//s".to_vec(),
        _ => tree::text(rng).into_bytes(),
    };
    Case::Format(text, options(rng))
}

pub fn options(rng: &mut Rng) -> Options {
    let mut options = Options {
        braces: rng.chance(50),
        ..Options::default()
    };
    // Mostly some settings changed, so that not all are refused.
    for setting in [
        &mut options.indentation,
        &mut options.newline,
        &mut options.space,
        &mut options.separator,
    ] {
        if rng.chance(40) {
            *setting = rng.pick(&SETTINGS).to_vec();
        }
    }
    options
}
