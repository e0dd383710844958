use super::{Answered, Calls, Given};
use crate::lent::Behind;
use oracle::models::compare::{Compare, Pair};

impl Calls for Compare {
    fn ask(case: &Pair, behind: Behind) -> Result<Answered<bool>, String> {
        let first = Given::new(&case.first, behind);
        let second = Given::new(&case.second, behind);
        let answer = eon::compare(first.text(), first.table(), second.text(), second.table());
        first.unchanged()?;
        second.unchanged()?;
        Ok(answer)
    }
}
