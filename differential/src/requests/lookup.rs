use super::{Answered, Calls, Given};
use crate::lent::{Behind, Lent};
use oracle::models::lookup::{Found, Lookup, Search};

impl Calls for Lookup {
    fn ask(case: &Search, behind: Behind) -> Result<Answered<Found>, String> {
        let event = Given::new(&case.event, behind);
        let paths = Given::new(&case.paths, behind);
        let mut answers = Lent::new(behind);
        let answer = eon::lookup(
            event.text(),
            event.table(),
            paths.text(),
            paths.table(),
            answers.lend_array(),
        );
        event.unchanged()?;
        paths.unchanged()?;
        let found = answers.answered_array(answer)?;
        Ok(found.map(|(steps, answers)| Found { steps, answers }))
    }
}
