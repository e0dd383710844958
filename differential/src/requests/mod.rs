//! The models of the requests, each run against the library by its list of calls.
//!
//! A request adds a file here with its calls, a `mod` line and a line of [`REQUESTS`].

mod compare;
mod lookup;
mod pick;

use crate::caught;
use crate::check::{Number, refusal_of};
use crate::counts::Counts;
use crate::lent::{Behind, Lent};
use crate::shrink::shrink;
use oracle::models::{self, Handed, Model};

pub const REQUESTS: &[Request] = &[
    // one line each
    Request::of::<models::compare::Compare>(),
    Request::of::<models::pick::RecordAt>(),
    Request::of::<models::pick::RecordsIn>(),
    Request::of::<models::lookup::Lookup>(),
];

/// What the library answers to a model's case.
pub trait Calls: Model {
    /// The error says what the call did to memory that it must not do.
    fn ask(case: &Self::Case, behind: Behind) -> Result<Answered<Self::Answer>, String>;
}

pub type Answered<A> = Result<A, eon::Refusal>;

/// What to ask.
pub struct Plan {
    pub count: usize,
    pub seed: u64,
    pub behind: Behind,
}

/// A model that can be run.
#[derive(Clone, Copy)]
pub struct Request {
    pub name: &'static str,
    pub run: fn(&Plan) -> Result<Counts, String>,
}

impl Request {
    const fn of<M: Calls>() -> Self {
        Self {
            name: M::NAME,
            run: run::<M>,
        }
    }
}

/// The error is the first difference, in its smallest form.
pub fn run<M: Calls>(plan: &Plan) -> Result<Counts, String> {
    let mut counts = Counts::default();
    for number in 0..plan.count {
        let case = models::case::<M>(plan.seed, number);
        match check::<M>(&case, plan.behind) {
            Ok(number) => counts.add(number),
            Err(_) => return Err(report::<M>(plan, number, case)),
        }
    }
    Ok(counts)
}

fn check<M: Calls>(case: &M::Case, behind: Behind) -> Result<Number, String> {
    caught(|| {
        let wanted = M::expected(case);
        let number = wanted.as_ref().map_or_else(|refusal| refusal.number, |_| 0);
        let wanted = wanted.map_err(refusal_of);
        let ours = M::ask(case, behind)?;
        let same = match (&wanted, &ours) {
            (Ok(wanted), Ok(ours)) => M::allows(case, wanted, ours),
            (Err(wanted), Err(ours)) => wanted == ours,
            _ => false,
        };
        if same {
            Ok(number)
        } else {
            Err(format!("ours:  {ours:?}\nmodel: {wanted:?}"))
        }
    })
}

fn report<M: Calls>(plan: &Plan, number: usize, case: M::Case) -> String {
    let differs = |case: &M::Case| check::<M>(case, plan.behind).is_err();
    let smallest = shrink(case, differs);
    let difference = check::<M>(&smallest, plan.behind).unwrap_err();
    format!(
        "difference in {}, case {number} of seed {}\n{difference}\nsmallest: {smallest:?}",
        M::NAME,
        plan.seed
    )
}

/// A text and its table, lent to be read only.
pub struct Given<'c> {
    handed: &'c Handed,
    words: Vec<u32>,
    text: Lent<u8>,
    table: Lent<u32>,
}

impl<'c> Given<'c> {
    pub fn new(handed: &'c Handed, behind: Behind) -> Self {
        let words = handed.words();
        Self {
            handed,
            text: Lent::holding(&handed.text, behind),
            table: Lent::holding(&words, behind),
            words,
        }
    }

    pub fn text(&self) -> &[u8] {
        self.text.words()
    }

    pub fn table(&self) -> &[u32] {
        self.table.words()
    }

    pub fn unchanged(&self) -> Result<(), String> {
        self.text.holds(&self.handed.text)?;
        self.table.holds(&self.words)
    }
}
