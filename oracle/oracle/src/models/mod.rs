//! Models of the requests: what a call must answer, written from the papers and never from the code
//! that is held to it.
//!
//! What the original can say (tokens, trees, refusals 1 to 13, values of strings) a model takes from
//! the original by this crate's calls. All else is written out from the paper's words. A request
//! adds a file here with its model and a `mod` line below; oracle/README.md has the steps.

pub mod compare;
mod handed;
pub mod lookup;
mod parts;
pub mod pick;
mod record;
mod table;
mod texts;

pub use handed::{Handed, Text, finished, fitting};
pub use parts::{Part, Parts};
pub use record::Record;
pub use table::Table;
pub use texts::{room, text};

use crate::generate::Rng;
use crate::refusal::Refusal;
use std::fmt::Debug;

pub trait Model {
    /// Its name on the command line. With a seed and a number it determines a case.
    const NAME: &'static str;

    /// Everything that the call is handed.
    type Case: Parts + Debug;

    /// What the call answers, with what it writes to lent memory.
    type Answer: PartialEq + Debug;

    /// A case such that every outcome is reached often.
    fn case(rng: &mut Rng) -> Self::Case;

    fn expected(case: &Self::Case) -> Result<Self::Answer, Refusal>;

    /// Whether `answer` will do where `expected` was given. For an answer that the paper leaves free.
    fn allows(_: &Self::Case, expected: &Self::Answer, answer: &Self::Answer) -> bool {
        expected == answer
    }
}

/// The case of that number, the same for the same name, seed and number.
pub fn case<M: Model>(seed: u64, number: usize) -> M::Case {
    let named = Rng::new(seed ^ hash(M::NAME)).bits();
    let numbered = Rng::new(named ^ number as u64).bits();
    M::case(&mut Rng::new(numbered))
}

/// FNV-1a: other names give other cases.
fn hash(name: &str) -> u64 {
    const BASIS: u64 = 0xCBF2_9CE4_8422_2325;
    const PRIME: u64 = 0x0100_0000_01B3;
    name.bytes().fold(BASIS, |hash, byte| {
        (hash ^ u64::from(byte)).wrapping_mul(PRIME)
    })
}
