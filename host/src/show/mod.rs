//! Entries of docs/DIFFERENCES.md by their smallest inputs, with what each side must answer.
pub mod given;
mod table;

use given::{Shown, Told};

use crate::{
    entries::{self, Entry},
    link,
    report::{Answer, Report},
};

/// The levels that the library has.
fn is_there(level: &str) -> bool {
    ["octets", "ASDU", "frame", "assembling", "link"].contains(&level)
}

fn all_shown() -> impl Iterator<Item = &'static Shown> {
    table::SHOWN.iter().chain(&link::shown::SHOWN)
}

pub fn compare(report: &mut Report) {
    report.level("entries of docs/DIFFERENCES.md");
    report.group("by their smallest inputs");
    for shown in all_shown() {
        report.listed(shown.entry, shown.input(), shown.ours(), shown.rust());
    }
    for Entry { id, level, .. } in entries::all() {
        let is_shown = all_shown().any(|shown| shown.entry == id);
        report.same((id, level), is_shown, is_there(level));
    }
}

/// Shows an entry; whether both sides answer as it says.
pub fn show(id: &str) -> Result<bool, String> {
    let entry = entries::all().find(|entry| entry.id == id);
    let Entry { title, level, .. } =
        entry.ok_or(format!("docs/DIFFERENCES.md has no entry {id}"))?;
    println!("{id} {title}");
    let mut as_listed = true;
    for shown in all_shown().filter(|shown| shown.entry == id) {
        println!("  {:?}", shown.input());
        as_listed &= show_answer("ours", shown.ours());
        as_listed &= show_answer("the Rust", shown.rust());
    }
    if !is_there(level) {
        println!("  ours needs the level {level:?}, which is not there yet");
        println!("  the Rust's side: docs/DIFFERENCES.md has the command");
    }
    Ok(as_listed)
}

fn show_answer(side: &str, answer: Answer<Told>) -> bool {
    println!("    {side} {:?}", answer.given);
    let as_listed = answer.given == answer.expected;
    if !as_listed {
        println!("    NOT AS THE ENTRY SAYS: {:?}", answer.expected);
    }
    as_listed
}
