//! Call lists as text: what is read can be written and read again, and both implementations answer it alike.

use beside::run::step;
use beside::twin::Twin;
use beside::Counts;
use call_lists::{List, ListedCall};
use second::machine::Machine;
use second::random::ListCall;

/// Lists with larger buffers, and calls past so many, are read but not run: a fuzzer makes many runs.
const GREATEST_STORE: usize = 1 << 16;
const GREATEST_CALLS: usize = 200;

/// Reads any bytes. The error says what differs.
pub fn text(input: &[u8]) -> Result<(), String> {
    let Ok(lists) = call_lists::read(input) else {
        return Ok(());
    };
    let again = call_lists::read(written(&lists)).map_err(|bad| format!("written, {bad}"))?;
    if !same(&lists, &again) {
        return Err("what is written is read as something else".to_string());
    }
    lists.iter().try_for_each(run)
}

/// The lists as text, with what they expect.
fn written(lists: &[List]) -> String {
    let call = |listed: &ListedCall| match &listed.expected {
        Some(expected) => format!("{} -> {expected}\n", listed.text),
        None => format!("{}\n", listed.text),
    };
    let list = |list: &List| list.head() + &list.calls.iter().map(call).collect::<String>();
    lists.iter().map(list).collect()
}

/// The same but for the lines on which they stand.
fn same(lists: &[List], again: &[List]) -> bool {
    let without_lines = |lists: &[List]| -> Vec<List> {
        let mut lists = lists.to_vec();
        for list in &mut lists {
            list.line = 0;
            list.calls.iter_mut().for_each(|listed| listed.line = 0);
        }
        lists
    };
    without_lines(lists) == without_lines(again)
}

fn run(list: &List) -> Result<(), String> {
    let Some(mut machine) = set_up(list) else {
        return Ok(());
    };
    let mut twin = Twin::of(&machine);
    for listed in list.calls.iter().take(GREATEST_CALLS) {
        let list_call = ListCall::from(&listed.call);
        step(&mut machine, &mut twin, &list_call, &mut Counts::default())?;
    }
    Ok(())
}

/// The second implementation, set up; none where it refuses, or where the buffers are large.
fn set_up(list: &List) -> Option<Machine> {
    let table = &list.table;
    let definition = second::definition::read_table(table)?;
    let store = second::store::store_size(&definition);
    let lent = list.lent.unwrap_or_default();
    let lengths = [store, lent.store, lent.queue, lent.images];
    if lengths.iter().any(|length| *length > GREATEST_STORE) {
        return None;
    }
    let machine = match list.lent {
        Some(lent) => Machine::with_sizes(
            table,
            list.capacity,
            lent.store,
            lent.queue,
            lent.images,
            lent.fill,
        ),
        None => Machine::new(table, list.capacity, 0xA5),
    };
    machine.ok()
}
