//! Runs one case: whole, call by call in either layout, two tables compared, a damaged one rescued, recorded by
//! intervals, from a file, some merged, one multiplied, or a palette for a terminal.
use crate::{
    buffer::Differs,
    calls::calls,
    case::{Case, Kind},
    doubled::doubled,
    narrow::narrow_calls,
    nights::nights,
    palettes::palettes,
    port::Port,
    ppm::ppm,
    recordings::recordings,
    rescues::rescues,
    tally::Tally,
    trees::trees,
    whole::whole,
};
use std::{
    any::Any,
    panic::{AssertUnwindSafe, catch_unwind},
};

/// What a panic says.
fn said(panic: Box<dyn Any + Send>) -> String {
    let text = panic.downcast_ref::<String>().cloned();
    let text = text.or_else(|| panic.downcast_ref::<&str>().map(|s| s.to_string()));
    format!("a panic: {}", text.unwrap_or_default())
}

/// Runs one case: what differs, if something does. A panic counts as a difference.
pub fn check(port: &dyn Port, case: &Case, tally: &mut Tally) -> Result<(), Differs> {
    tally.cases += 1;
    let run = AssertUnwindSafe(|| match &case.kind {
        Kind::Whole { by_pixels, batches } => whole(port, case, *by_pixels, *batches, tally),
        Kind::Calls { split, damages } => calls(port, case, *split, damages, tally),
        Kind::Narrow { split, damages } => narrow_calls(port, case, *split, damages, tally),
        Kind::Nights {
            from,
            split,
            damages,
        } => nights(port, case, *from, *split, damages, tally),
        Kind::Rescues { damages } => rescues(port, case, damages, tally),
        Kind::Recordings {
            split,
            first,
            entries,
            damages,
        } => {
            let list = (*first, entries.as_flattened());
            recordings(port, case, *split, list, damages, tally)
        }
        Kind::Ppm {
            split,
            header,
            damages,
        } => ppm(port, case, *split, header, damages, tally),
        Kind::Trees { tables, damages } => trees(port, case, tables, damages, tally),
        Kind::Doubled { power, free } => doubled(port, case, *power, *free, tally),
        Kind::Palettes { stray, answers } => palettes(port, case, *stray, *answers, tally),
    });
    catch_unwind(run).unwrap_or_else(|panic| Err(said(panic)))
}
