//! Both engines, the walks of single slots and the event-driven programs say the same of a table, or the run ends.

use crate::calls::{plain_report, report};
use crate::events::{again, Program, PROGRAMS};
use crate::page::Page;
use crate::tables::{horizon, overload, table_file, Task};
use crate::walk::{one_pass, said_by, said_by_report, two_passes, End, Walk};

/// What they say with this budget; slot by slot no further than the page lets them walk.
pub fn agreed(page: &Page, name: &str, tasks: &[Task], budget: u64) -> Walk {
    let near = budget.min(page.most_slots());
    slot_by_slot(name, tasks, near);
    from_event_to_event(name, tasks, budget)
}

/// How many slots are walked with no search in the time: a late table stops one slot before its late deadline.
pub fn slots_without_search(page: &Page, name: &str, tasks: &[Task]) -> u64 {
    match agreed(page, name, tasks, u64::MAX).end {
        End::Late(at) => at - 1,
        End::Reached(at) => at,
    }
}

fn slot_by_slot(name: &str, tasks: &[Task], budget: u64) {
    let end = budget.min(horizon(tasks));
    let walk = one_pass(tasks, end);
    assert_eq!(walk, two_passes(tasks, end), "{name}, budget {budget}");
    assert_eq!(walk, from_event_to_event(name, tasks, budget), "{name}, budget {budget}");
    let file = table_file(tasks, budget);
    assert_eq!(plain_report(&file), report(&file), "{name}, budget {budget}");
}

fn from_event_to_event(name: &str, tasks: &[Task], budget: u64) -> Walk {
    let (horizon, again) = (horizon(tasks), again(tasks));
    let end = budget.min(horizon);
    let [one, other] = PROGRAMS.map(|program| program(tasks, end, again));
    assert_eq!(one, other, "{name}, budget {budget}");
    let report = report(&table_file(tasks, budget));
    assert_eq!(said_by(&one, tasks.len(), end == horizon), said_by_report(&report), "{name}, budget {budget}");
    one
}

/// No job is late from these starts to the first idle instant after 0, and the table is no overload.
pub fn starts_pass(tasks: &[Task], program: Program) -> bool {
    !overload(tasks) && matches!(program(tasks, u64::MAX, 1).end, End::Reached(_))
}
