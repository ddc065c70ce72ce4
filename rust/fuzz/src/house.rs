//! `partycall`'s input: a definition table and calls, on both implementations with the program's buffers.

use beside::run::{set_up_both, step};
use beside::twin::Twin;
use beside::Counts;
use second::house::{self, Request, CAPACITY, IMAGES, STORE};
use second::machine::Machine;
use second::random::ListCall;
use second::{definition, nucleus, state};

/// Runs the list on both, as far as it is good, and compares after each call. The error says what differs.
pub fn house(input: &[u8]) -> Result<(), String> {
    let printed = house::run(input);
    let Some((table, mut rest)) = house::parted(input) else {
        return Ok(());
    };
    let Some((mut machine, mut twin)) = set_up(table)? else {
        return Ok(());
    };
    let mut lines = printed.lines();
    while let Some((request, tail)) = house::read_call(rest) {
        let list_call = brought(&request);
        step(&mut machine, &mut twin, &list_call, &mut Counts::default())?;
        lines.next().ok_or("a call without a line")?;
        rest = tail;
    }
    let end = lines.next();
    match (rest.is_empty(), end) {
        (true, None) | (false, Some("bad")) => Ok(()),
        _ => Err(format!(
            "{} bytes are left and {end:?} is printed",
            rest.len()
        )),
    }
}

/// Sets both up; none where both refuse the table.
fn set_up(table: &[u8]) -> Result<Option<(Machine, Twin)>, String> {
    let mut machine = Machine {
        state: state::State::fresh(definition::Definition::default()),
        capacity: CAPACITY,
        store: vec![0xA5; STORE],
        queue: vec![Default::default(); CAPACITY as usize],
        images: vec![0xA5; IMAGES],
    };
    let mut twin = Twin::of(&machine);
    let made = nucleus::set_up(
        table,
        CAPACITY,
        &mut machine.store,
        &mut machine.queue,
        &mut machine.images,
    );
    let expected = made.as_ref().map_err(|response| *response);
    set_up_both(table, &mut twin, expected, &machine.store)?;
    Ok(made.ok().map(|state| (Machine { state, ..machine }, twin)))
}

fn brought(request: &Request) -> ListCall {
    ListCall {
        call: request.call,
        format: request.format.to_vec(),
        record: request.record.to_vec(),
    }
}
