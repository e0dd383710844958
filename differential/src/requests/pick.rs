use super::{Answered, Calls, Given};
use crate::lent::{Behind, Lent};
use oracle::models::pick::{Click, Hit, RecordAt, RecordsIn, Selection};

impl Calls for RecordAt {
    fn ask(case: &Click, behind: Behind) -> Result<Answered<usize>, String> {
        let given = Given::new(&case.handed, behind);
        let answer = eon::record_at(given.text(), given.table(), case.offset);
        given.unchanged()?;
        Ok(answer)
    }
}

impl Calls for RecordsIn {
    fn ask(case: &Selection, behind: Behind) -> Result<Answered<Vec<Hit>>, String> {
        let given = Given::new(&case.handed, behind);
        let mut list = Lent::new(behind);
        let range = case.start..case.end;
        let answer = eon::records_in(given.text(), given.table(), range, list.lend(case.room));
        given.unchanged()?;
        let hits = list.answered(answer)?;
        Ok(hits.map(|hits| hits.into_iter().map(hit_of).collect()))
    }
}

fn hit_of(hit: eon::Hit) -> Hit {
    let eon::Hit { record, start, end } = hit;
    Hit { record, start, end }
}
