//! What the run of a model must notice, and what it must let pass.

use differential::lent::{Behind, Lent};
use differential::requests::{Answered, Calls, Given, Plan, REQUESTS, run};
use oracle::generate::Rng;
use oracle::models::compare::{Compare, Pair};
use oracle::models::{Handed, Model, Part, Parts, fitting, room};
use oracle::{Options, Refusal};

const PLAN: Plan = Plan {
    count: 3000,
    seed: 1,
    behind: Behind::Guard,
};

/// A model with other answers than the right one, held to the library's call.
macro_rules! other {
    ($right:ident, $name:ident, $expected:expr $(, $allows:item)?) => {
        struct $name;

        impl Model for $name {
            const NAME: &'static str = stringify!($name);
            type Case = <$right as Model>::Case;
            type Answer = <$right as Model>::Answer;

            fn case(rng: &mut Rng) -> Self::Case {
                $right::case(rng)
            }

            fn expected(case: &Self::Case) -> Result<Self::Answer, Refusal> {
                $expected(case)
            }

            $($allows)?
        }

        impl Calls for $name {
            fn ask(case: &Self::Case, behind: Behind) -> Result<Answered<Self::Answer>, String> {
                $right::ask(case, behind)
            }
        }
    };
}

#[path = "requests/lookup.rs"]
mod lookup;
#[path = "requests/pick.rs"]
mod pick;

other!(Compare, AlwaysEqual, |case| Compare::expected(case)
    .map(|_| true));
other!(Compare, SecondFirst, |case: &Pair| {
    case.second.finished()?;
    Compare::expected(case)
});
other!(Compare, Unplaced, |case| Compare::expected(case)
    .map_err(|refusal| Refusal { end: 0, ..refusal }));
other!(Compare, Panicking, |case| {
    let answer = Compare::expected(case);
    assert!(answer != Ok(true), "equal trees");
    answer
});
other!(
    Compare,
    Free,
    |case| Compare::expected(case).map(|equal| !equal),
    fn allows(_: &Pair, expected: &bool, answer: &bool) -> bool {
        answer != expected
    }
);

fn difference<M: Calls>() -> String {
    let difference = run::<M>(&PLAN).err();
    difference.unwrap_or_else(|| panic!("{} passes", M::NAME))
}

#[test]
fn every_model_agrees() {
    for request in REQUESTS {
        let counts = (request.run)(&PLAN).unwrap_or_else(|difference| panic!("{difference}"));
        assert_eq!(counts.total(), PLAN.count, "{}", request.name);
        assert!(counts.of(0) > PLAN.count / 10, "{}", request.name);
    }
}

#[test]
fn a_wrong_answer_is_noticed_and_shrunk() {
    let difference = difference::<AlwaysEqual>();
    assert!(difference.contains("in AlwaysEqual"), "{difference}");
    let answers = "\nours:  Ok(false)\nmodel: Ok(true)\n";
    assert!(difference.contains(answers), "{difference}");
    // The empty map and another record.
    let one = "text: \"\", table: Finished";
    assert!(difference.contains(one), "{difference}");
    let smallest = difference.lines().last().unwrap_or_default();
    assert!(smallest.len() < 140, "{difference}");
}

#[test]
fn another_order_of_refusals_is_noticed() {
    let difference = difference::<SecondFirst>();
    assert!(difference.contains("ours:  Err"), "{difference}");
    assert!(difference.contains("model: Err"), "{difference}");
}

#[test]
fn another_place_is_noticed() {
    let difference = difference::<Unplaced>();
    assert!(difference.contains("end: 0"), "{difference}");
}

#[test]
fn a_panic_is_noticed() {
    let difference = difference::<Panicking>();
    assert!(difference.contains("a panic"), "{difference}");
    let both = "first: Handed { text: \"\", table: Finished }, second: Handed { text: \"\", table: Finished }";
    assert!(difference.contains(both), "{difference}");
}

#[test]
fn an_answer_left_free_passes_where_the_model_allows_it() {
    assert!(run::<Free>(&PLAN).is_ok());
}

#[derive(Clone, Debug)]
struct Sheet {
    handed: Handed,
    room: usize,
}

impl Parts for Sheet {
    fn parts(&mut self) -> Vec<Part<'_>> {
        let room = Part::Number(&mut self.room);
        self.handed.parts().into_iter().chain([room]).collect()
    }
}

/// The base's layout under the default settings: a call with a lent output. It is made to answer so
/// many bytes less than it writes.
struct Layout<const LESS: usize>;

impl<const LESS: usize> Model for Layout<LESS> {
    const NAME: &'static str = "layout";
    type Case = Sheet;
    type Answer = Vec<u8>;

    fn case(rng: &mut Rng) -> Sheet {
        let handed = Handed::random(rng);
        let layout = oracle::format(&handed.text, &Options::default()).unwrap_or_default();
        let room = room(layout.len(), rng);
        Sheet { handed, room }
    }

    fn expected(case: &Sheet) -> Result<Vec<u8>, Refusal> {
        case.handed.finished()?;
        let layout = oracle::format(&case.handed.text, &Options::default())?;
        fitting(layout, case.room)
    }
}

impl<const LESS: usize> Calls for Layout<LESS> {
    fn ask(case: &Sheet, behind: Behind) -> Result<Answered<Vec<u8>>, String> {
        let given = Given::new(&case.handed, behind);
        let mut out = Lent::new(behind);
        let lent = out.lend(case.room);
        let settings = eon::Settings::default();
        let answer = eon::format(given.text(), given.table(), &settings, lent);
        given.unchanged()?;
        out.answered(answer.map(|len| len.saturating_sub(LESS)))
    }
}

#[test]
fn a_call_with_a_lent_output_fits_the_frame() {
    for behind in [Behind::Guard, Behind::Nothing] {
        let plan = Plan { behind, ..PLAN };
        let counts = run::<Layout<0>>(&plan).unwrap_or_else(|difference| panic!("{difference}"));
        for number in [0, 1, 2, 13, 14, 15] {
            assert!(counts.of(number) > 0, "{number}: {counts}");
        }
    }
}

#[test]
fn bytes_written_behind_an_answer_are_noticed() {
    let difference = difference::<Layout<1>>();
    assert!(difference.contains("memory at 1 holds"), "{difference}");
}
