//! What a count of instructions needs: the list of cases, and one side of one case.

use super::{Ready, Side, Work, tables};
use crate::subject::Subject;

/// Prints each case's table, its name, its passes, its calls a pass, and of coding the numbers of
/// the store that it needs, and four for each state.
pub fn list() {
    for table in tables() {
        for case in table.cases.iter().filter(|case| case.passes > 0) {
            let ready = case.ready();
            let stores = match case.work {
                Work::Code => ready.stores().map(|store| store.to_string()).join(" "),
                _ => "- -".into(),
            };
            let calls = ready.inputs.len();
            println!("{} {} {} {calls} {stores}", table.name, case.name, case.passes);
        }
    }
}

/// One side of one case: once to fill the Rust's own tables, then so many passes. A case of coding
/// can be lent a store of another length.
pub fn only(
    subject: &dyn Subject,
    side: Side,
    name: &str,
    passes: u64,
    store: Option<usize>,
) -> Result<(), String> {
    let mut cases = tables().flat_map(|table| table.cases);
    let case = cases.find(|case| case.name == name).ok_or("no such case")?;
    if store.is_some() && case.work != Work::Code {
        return Err("only coding is lent a store".into());
    }
    let ready = Ready { store, ..case.ready() };
    let mut run = side.runner(subject, &ready);
    (0..=passes).for_each(|_| run());
    Ok(())
}
