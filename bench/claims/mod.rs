//! Each module is one claim, and each claim one table of the page.

mod checks;
mod distance;
mod drawn;
mod events;
mod largest;
mod logs;
mod quick;
mod rounds;
mod searches;
mod steps;
mod walks;

use crate::page::Page;

pub const ALL: [(&str, fn(&mut Page)); 11] = [
    ("checks", checks::claim),
    ("events", events::claim),
    ("rounds", rounds::claim),
    ("walks", walks::claim),
    ("searches", searches::claim),
    ("quick", quick::claim),
    ("distance", distance::claim),
    ("drawn", drawn::claim),
    ("largest", largest::claim),
    ("steps", steps::claim),
    ("logs", logs::claim),
];
