//! Random call lists as text, one line a call, with the answers of this implementation. The README has the format.

use crate::compare;
use crate::random::{List, ListCall};
use crate::state::Command;
use call_lists::hex;

/// A list and what this implementation answers; the error says why it cannot be run.
pub fn list_text(list: &List) -> Result<String, String> {
    let (answers, _) = compare::run(list)?;
    let mut text = format!(
        "list seed={} table={} capacity={} store={} queue={} images={} fill={:02X}\n",
        list.seed,
        hex(&list.table),
        list.capacity,
        list.store,
        list.queue,
        list.images,
        compare::FILL,
    );
    for (list_call, (answer, after)) in list.calls.iter().zip(&answers) {
        text += &format!(
            "call {} -> {} {} {} {} after={}\n",
            call_text(list_call),
            answer.response,
            answer.isn,
            answer.quantity,
            answer.sequence,
            hex(after)
        );
    }
    Ok(text)
}

fn call_text(list_call: &ListCall) -> String {
    let call = &list_call.call;
    format!(
        "{} command={} option={:02X} user={} file={} isn={} limit={} clock={} format={} record={}",
        name(call.command),
        hex(&call.command),
        call.option,
        call.user,
        call.file,
        call.isn,
        call.limit,
        call.clock,
        hex(&list_call.format),
        hex(&list_call.record)
    )
}

/// The command's letters, or `--` where it is unknown.
fn name(code: [u8; 2]) -> String {
    match Command::from_code(code) {
        Some(_) => String::from_utf8_lossy(&code).into_owned(),
        None => "--".to_string(),
    }
}
