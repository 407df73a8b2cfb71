//! What docs/PERFORMANCE.md claims, measured beside Rust programs that do the same: bench [--short] [CLAIM...]. See bench/run.

mod agreed;
mod calls;
mod claims;
mod events;
mod page;
#[rustfmt::skip]
mod samples;
mod step;
mod tables;
mod walk;

use page::Page;
use std::process::ExitCode;

fn main() -> ExitCode {
    let (options, names): (Vec<String>, Vec<String>) = std::env::args().skip(1).partition(|word| word.starts_with("--"));
    let known = |name: &String| claims::ALL.iter().any(|(claim, _)| claim == name);
    if options.iter().any(|word| word != "--short") || !names.iter().all(known) {
        let claims = claims::ALL.map(|(name, _)| name).join(", ");
        eprintln!("usage: bench [--short] [CLAIM...], with claims {claims}");
        return ExitCode::from(2);
    }
    let mut page = Page::new(!options.is_empty());
    for (name, claim) in claims::ALL {
        if names.is_empty() || names.iter().any(|word| word == name) {
            claim(&mut page);
            page.end(name);
        }
    }
    ExitCode::from(!page.all_hold() as u8)
}
