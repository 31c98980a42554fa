//! The page at the end of an audit: the auditor's question first, then all counts.

use crate::counts::{grouped, Old, Summary};
use crate::names::shown;
use crate::record::Class;
use crate::sentence::meaning;
use std::fmt::Write;

/// How many records are named on the page.
pub const NAMED: usize = 10;

/// An answer in few words: its number, and what it means as far as the first stop.
fn words(class: Class) -> String {
    let meaning = meaning(class).split([':', '.']).next().unwrap_or_default();
    match class {
        Class::Orderly => "orderly".into(),
        Class::Unsettled => "not orderly (an unsettled pair)".into(),
        Class::Broken(number) | Class::Refused(number) => format!("{number} {meaning}"),
        Class::Unreadable => "could not be read".into(),
    }
}

/// The page. `sourceless`: the first records that were refused 11, at most `NAMED`.
pub fn page(summary: &Summary, sourceless: &[Vec<u8>], lost: &[(Vec<u8>, String)]) -> String {
    let counts = &summary.counts;
    let mut page = format!("Audit of {}\n\n", summary.archives.join(", "));
    let mut row = |depth: usize, what: &str, n: u64| {
        let what = format!("{}{what}", "  ".repeat(depth));
        let _ = writeln!(page, "{what:<58}{:>14}", grouped(n));
    };
    row(0, "records", counts.all());
    row(1, "consistent", counts.consistent());
    row(2, &words(Class::Orderly), counts.of(Class::Orderly));
    row(2, &words(Class::Unsettled), counts.of(Class::Unsettled));
    row(1, "broken, by rule", counts.broken());
    for (&class, &n) in counts.0.iter().filter(|(c, _)| matches!(c, Class::Broken(_))) {
        row(2, &words(class), n);
    }
    row(1, "refused, by number", counts.refused());
    for (&class, &n) in counts.0.iter().filter(|(c, _)| matches!(c, Class::Refused(_))) {
        row(2, &words(class), n);
    }
    row(1, &words(Class::Unreadable), counts.of(Class::Unreadable));
    if let Some((ending, n)) = &summary.left_out {
        row(0, &format!("left out, since their names do not end with {ending}"), *n);
    }
    questions(summary, sourceless, lost, &mut page);
    page
}

fn questions(summary: &Summary, sourceless: &[Vec<u8>], lost: &[(Vec<u8>, String)], page: &mut String) {
    let counts = &summary.counts;
    let without = counts.of(Class::Refused(11));
    let mut say = |line: String| {
        let _ = writeln!(page, "{line}");
    };
    say(format!(
        "\nA read byte without a source: {} of {} records (refused 11).",
        grouped(without),
        grouped(counts.all())
    ));
    sourceless.iter().for_each(|name| say(format!("  {}", shown(name))));
    if without > sourceless.len() as u64 {
        say(format!(
            "  .. and {} more: in the CSV, the lines with `refused 11`",
            grouped(without - sourceless.len() as u64)
        ));
    }
    let others = counts.refused() - without;
    if others > 0 {
        say(format!(
            "  Of the {} records refused by another number nothing is said of their sources: that fault was met first.",
            grouped(others)
        ));
    }
    say(format!(
        "Agents that are promised and never appear: {} records (refused 14).",
        grouped(counts.of(Class::Refused(14)))
    ));
    say(format!(
        "Broken: {} records. Consistent but not orderly: {}.",
        grouped(counts.broken()),
        grouped(counts.of(Class::Unsettled))
    ));
    if counts.of(Class::Unreadable) > 0 {
        say(format!("Could not be read, and not judged: {}.", grouped(counts.of(Class::Unreadable))));
        lost.iter().for_each(|(name, why)| say(format!("  {}: {why}", shown(name))));
        if counts.of(Class::Unreadable) > lost.len() as u64 {
            let more = counts.of(Class::Unreadable) - lost.len() as u64;
            say(format!("  .. and {} more: in the CSV, the lines with `unreadable`", grouped(more)));
        }
    }
    if let Some(compared) = &summary.compared {
        let of = |old: Old, asked: &dyn Fn(Class) -> bool| grouped(compared.sum(|o, c| o == old && asked(c)));
        let consistent = |c: Class| matches!(c, Class::Orderly | Class::Unsettled);
        let (refused, broken) = (|c: Class| matches!(c, Class::Refused(_)), |c: Class| matches!(c, Class::Broken(_)));
        say(format!("\nCompared with {}", compared.file));
        let mut row = |depth: usize, what: &str, n: String| {
            say(format!("{:<58}{n:>14}", format!("{}{what}", "  ".repeat(depth))))
        };
        for (old, what) in [(Old::Pass, "passes of the other judge"), (Old::Fail, "fails of the other judge")] {
            row(0, what, of(old, &|_| true));
            row(1, "consistent here", of(old, &consistent));
            row(1, "broken here", of(old, &broken));
            row(1, "refused here", of(old, &refused));
            row(2, "for a read byte without a source", of(old, &|c| c == Class::Refused(11)));
            row(1, "could not be read here", of(old, &|c| c == Class::Unreadable));
        }
        row(0, "records of which the other judge says nothing", grouped(compared.unsaid));
        row(0, "names of the other judge that are no records here", grouped(compared.elsewhere));
        if compared.twice > 0 {
            row(0, "names that stand there more than once (the first counts)", grouped(compared.twice));
        }
        say(format!(
            "Passes of the other judge that this one does not uphold: {} refused, {} broken, {} could not be read.",
            of(Old::Pass, &refused),
            of(Old::Pass, &broken),
            of(Old::Pass, &|c| c == Class::Unreadable)
        ));
    }
}
