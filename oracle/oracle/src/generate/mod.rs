//! Cases to ask, the same for the same kind and seed.

pub(crate) mod deep;
pub(crate) mod long;
pub(crate) mod pairs;
mod rng;
pub(crate) mod settings;
pub(crate) mod short;
pub(crate) mod strings;
pub(crate) mod tree;
pub(crate) mod wild;

use crate::calls::Options;
use crate::protocol::Case;
pub use rng::Rng;

#[derive(Clone, Copy, Debug, PartialEq, Eq)]
pub enum Kind {
    /// All texts up to four bytes over a small alphabet, each read and cut into tokens.
    Short,
    /// Tokens and parts of tokens in any order.
    Soup,
    /// Well-formed trees with wild spacing and comments.
    Tree,
    /// Depths around the deepest that is read.
    Deep,
    /// Trees with some bytes changed.
    Damaged,
    /// Lengths around the longest that is read.
    Long,
    /// Quoted strings: a fixed sheet of edges, then random ones.
    Unquote,
    /// Identifiers and what is nearly one: a fixed sheet, then random ones.
    Identifier,
    /// Layouts under many kinds of settings.
    Settings,
    /// Pairs of texts, equal and nearly equal.
    Compare,
    /// All of the above by fixed shares.
    All,
}

/// How many of 10,000 cases of `All` are of a kind. Long cases take long, so they are few.
const SHARES: [(Kind, usize); 10] = [
    (Kind::Short, 1500),
    (Kind::Soup, 2000),
    (Kind::Tree, 2500),
    (Kind::Deep, 400),
    (Kind::Damaged, 1400),
    (Kind::Long, 1),
    (Kind::Unquote, 1000),
    (Kind::Identifier, 200),
    (Kind::Settings, 500),
    (Kind::Compare, 499),
];

const SHARES_SUM: usize = 10_000;

impl Kind {
    pub const ALL: [Self; 11] = [
        Self::Short,
        Self::Soup,
        Self::Tree,
        Self::Deep,
        Self::Damaged,
        Self::Long,
        Self::Unquote,
        Self::Identifier,
        Self::Settings,
        Self::Compare,
        Self::All,
    ];

    pub fn name(self) -> &'static str {
        match self {
            Self::Short => "short",
            Self::Soup => "soup",
            Self::Tree => "tree",
            Self::Deep => "deep",
            Self::Damaged => "damaged",
            Self::Long => "long",
            Self::Unquote => "unquote",
            Self::Identifier => "identifier",
            Self::Settings => "settings",
            Self::Compare => "compare",
            Self::All => "all",
        }
    }

    pub fn named(name: &str) -> Option<Self> {
        Self::ALL.into_iter().find(|kind| kind.name() == name)
    }

    /// How many of 10,000 cases of `All` are of this kind.
    pub fn share(self) -> usize {
        let own = SHARES.iter().find(|(kind, _)| *kind == self);
        own.map_or(SHARES_SUM, |(_, share)| *share)
    }

    fn by_share(rng: &mut Rng) -> Self {
        let mut place = rng.below(SHARES_SUM);
        for (kind, share) in SHARES {
            if place < share {
                return kind;
            }
            place -= share;
        }
        unreachable!("the shares add up")
    }
}

/// `count` cases of a kind, fewer if the kind has no more.
pub fn generate(kind: Kind, count: usize, seed: u64) -> impl Iterator<Item = Case> {
    Generator {
        kind,
        rng: Rng::new(seed),
        turn: 0,
    }
    .take(count)
}

struct Generator {
    kind: Kind,
    rng: Rng,
    turn: usize,
}

impl Iterator for Generator {
    type Item = Case;

    fn next(&mut self) -> Option<Case> {
        let turn = self.turn;
        self.turn += 1;
        match self.kind {
            Kind::All => Some(random_case(Kind::by_share(&mut self.rng), &mut self.rng)),
            Kind::Short => short::case(turn),
            // The fixed sheets come first, whole.
            Kind::Unquote if turn < strings::quoted_sheet().len() => {
                Some(Case::Unquote(strings::quoted_sheet()[turn].clone()))
            }
            Kind::Identifier if turn < strings::identifier_sheet().len() => {
                Some(Case::Identifier(strings::identifier_sheet()[turn].clone()))
            }
            kind => Some(random_case(kind, &mut self.rng)),
        }
    }
}

fn random_case(kind: Kind, rng: &mut Rng) -> Case {
    match kind {
        Kind::All => random_case(Kind::by_share(rng), rng),
        Kind::Short => short::random_case(rng),
        Kind::Soup => text_case(wild::soup(rng), rng),
        Kind::Tree => text_case(tree::text(rng).into_bytes(), rng),
        Kind::Deep => text_case(deep::text(rng), rng),
        Kind::Damaged => text_case(wild::damaged(rng), rng),
        Kind::Long => long::case(rng),
        Kind::Unquote => Case::Unquote(strings::quoted(rng)),
        Kind::Identifier => Case::Identifier(strings::identifier(rng)),
        Kind::Settings => settings::case(rng),
        Kind::Compare => pairs::case(rng),
    }
}

/// Asks one of the questions that a text can be asked.
fn text_case(text: Vec<u8>, rng: &mut Rng) -> Case {
    match rng.below(20) {
        0..9 => Case::Read(text),
        9..18 => Case::Format(text, Options::default()),
        _ => Case::Tokens(text),
    }
}
