//! One list: set up, called, printed or compared.

use crate::arguments::Arguments;
use crate::explain;
use crate::implementation::{self, Implementation};
use crate::Failure;
use call_lists::{Call, List, Outcome};
use std::fmt;
use std::io::Write;
use towungbe::raw::Waiter;

/// What was done, over all lists.
#[derive(Default)]
pub struct Counts {
    lists: usize,
    calls: usize,
    compared: usize,
}

impl fmt::Display for Counts {
    fn fmt(&self, formatter: &mut fmt::Formatter) -> fmt::Result {
        let lists = counted(self.lists, "list");
        let calls = counted(self.calls, "call");
        let answers = counted(self.compared, "answer");
        write!(
            formatter,
            "{lists}, {calls}, {answers} compared: all as expected"
        )
    }
}

fn counted(count: usize, what: &str) -> String {
    match count {
        1 => format!("1 {what}"),
        _ => format!("{count} {what}s"),
    }
}

pub fn run_list(
    arguments: &Arguments,
    list: &List,
    output: &mut impl Write,
    counts: &mut Counts,
) -> Result<(), Failure> {
    if !arguments.check {
        write!(output, "{}", list.head())?;
    }
    let mut nucleus = implementation::set_up(list, arguments.second)
        .map_err(|response| refused_set_up(list, response))?;
    counts.lists += 1;
    for listed in &list.calls {
        let waited = nucleus.waiters();
        let outcome = call_lists::run_call(nucleus.as_mut(), &listed.call);
        counts.calls += 1;
        let said = match arguments.explain {
            true => said_of(list, nucleus.as_ref(), &waited, &listed.call, &outcome),
            false => Vec::new(),
        };
        if arguments.check {
            counts.compared += usize::from(listed.expected.is_some());
            listed.check(&outcome).map_err(|differs| {
                let because: String = said.iter().map(|why| format!("; {why}")).collect();
                let text = &listed.text;
                Failure::Differs(format!("line {}: {differs} ({text}){because}", listed.line))
            })?;
            continue;
        }
        writeln!(output, "{} -> {}", listed.text, listed.found(&outcome))?;
        for sentence in said {
            writeln!(output, "# {sentence}")?;
        }
    }
    Ok(())
}

/// The sentences about a call: why it was refused, and what it handed over.
fn said_of(
    list: &List,
    nucleus: &dyn Implementation,
    waited: &[Waiter],
    call: &Call,
    outcome: &Outcome,
) -> Vec<String> {
    let refusal = explain::refusal(&list.table, nucleus, call, outcome.answer.response);
    let handed_over = explain::handed_over(waited, nucleus, call);
    refusal.into_iter().chain(handed_over).collect()
}

fn refused_set_up(list: &List, response: u16) -> Failure {
    let said = explain::response(response);
    Failure::Differs(format!("line {}: set-up answers {said}", list.line))
}
