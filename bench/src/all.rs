//! The tables of docs/BENCHMARKS.md: whole sheets in every build of the ordinary judge, lists, sheets a second, worst cases.
use crate::sheets::{columns, fresh_columns, Line, Times, KINDS};
use std::process::Command;

/// What a build measured: its name, its lines, and those of the lists.
struct Build {
    name: String,
    lines: Vec<Line>,
    lists: Vec<String>,
}

fn asked(program: &str, words: &[&str]) -> String {
    let out = Command::new(program).args(words).output();
    let out = out.unwrap_or_else(|e| panic!("{program} does not run: {e}"));
    assert!(out.status.success(), "{program}: {}", String::from_utf8_lossy(&out.stderr));
    String::from_utf8(out.stdout).expect("it prints text")
}

fn measured(program: &str) -> Build {
    let told = asked(program, &["sheets", "raw"]);
    let (lists, lines): (Vec<&str>, Vec<&str>) = told.lines().partition(|line| line.starts_with('|'));
    let line = |line: &str| {
        let words: Vec<&str> = line.split(' ').collect();
        let number = |i: usize| words[i].parse::<f64>().expect("a number");
        let times = |i: usize| Times { lowest: number(i), median: number(i + 1) };
        let kind = KINDS.into_iter().find(|kind| kind.replace(' ', "-") == words[1]).expect("a kind");
        Line { events: number(0) as usize, kind, times: [times(2), times(4)], fresh: [number(6), number(7)] }
    };
    Build {
        name: asked(program, &["build"]).trim().to_string(),
        lines: lines.into_iter().map(line).collect(),
        lists: lists.into_iter().map(str::to_string).collect(),
    }
}

/// The words are the programs of the other builds.
pub fn run(others: &[&str]) {
    let own = std::env::current_exe().expect("the program has a path");
    let own = own.to_str().expect("of text");
    let builds: Vec<Build> = [own].iter().chain(others).map(|program| measured(program)).collect();
    println!("{}\n", crate::machine());
    println!("### Whole sheets\n");
    println!("| Events | Answer | Plimdrong | Ordinary | Ratio | Medians | Ratio | Fresh | Ratio | Build |");
    println!("|---|---|---|---|---|---|---|---|---|---|");
    // the build in which this time of a line is least
    let least = |of: &dyn Fn(&Build) -> f64| builds.iter().min_by(|a, b| of(a).total_cmp(&of(b))).expect("some build");
    let lowest = |line: usize, judge: usize| least(&|b: &Build| b.lines[line].times[judge].lowest);
    for i in 0..builds[0].lines.len() {
        let best = lowest(i, 1);
        let Line { events, kind, times: [ours, ordinary], .. } = best.lines[i];
        let ours = Times { lowest: lowest(i, 0).lines[i].times[0].lowest, ..ours };
        let fresh = [0, 1].map(|judge| least(&|b: &Build| b.lines[i].fresh[judge]).lines[i].fresh[judge]);
        println!("| {events} | {kind} | {} | {} | {} |", columns([ours, ordinary]), fresh_columns(fresh), best.name);
    }
    println!("\nThe ordinary judge by build, lowest:\n");
    let names: Vec<&str> = builds.iter().map(|b| &b.name[..]).collect();
    println!("| Events | Answer | Plimdrong | {} |", names.join(" | "));
    println!("|---|---|---|{}", "---|".repeat(builds.len()));
    for i in 0..builds[0].lines.len() {
        let times: Vec<String> = builds.iter().map(|b| format!("{:.0} ns", b.lines[i].times[1].lowest)).collect();
        let Line { events, kind, .. } = builds[0].lines[i];
        let ours = lowest(i, 0).lines[i].times[0].lowest;
        println!("| {events} | {kind} | {ours:.0} ns | {} |", times.join(" | "));
    }
    println!("\n### Lists that are accepted ({})\n", builds[0].name);
    crate::sheets::print_lists(&builds[0].lists);
    println!("\n### Sheets a second\n");
    crate::rate::print_random();
    println!("\n### Worst cases\n");
    crate::worst::print();
}
