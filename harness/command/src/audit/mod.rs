//! plimdrong audit: every record of an archive judged, on all cores, in memory that does not grow with the archive.

mod compare;
mod csv;
mod output;
mod page;
mod pipeline;
mod sort;
mod source;

use crate::counts::{Counts, Summary};
use crate::record::Class;
use crate::report::Report;
use crate::write::failure;
use crate::{complain, names, Entry, DONE, FAILED, FOUND};
use clap::{value_parser, Arg, ArgAction, ArgMatches, Command};
use compare::Compare;
use indicatif::{ProgressBar, ProgressStyle};
use output::{Failure, Output};
use pipeline::{Sinks, Told};
use source::Source;
use std::ffi::{OsStr, OsString};
use std::io::Write;
use std::os::unix::ffi::OsStrExt;
use std::path::{Path, PathBuf};

pub const ENTRY: Entry = Entry { command, run };

/// How many records of each answer the report lists, if nothing is said.
const SHOW: u64 = 200;

fn command() -> Command {
    let file = |name: &'static str, help: &'static str| {
        Arg::new(name).long(name).value_name("FILE").value_parser(value_parser!(PathBuf)).help(help)
    };
    Command::new("audit")
        .about("Audits an archive: every record judged, the answers counted, those named that have a read byte without a source")
        .arg(
            Arg::new("archive")
                .value_name("FOLDER|LIST")
                .num_args(0..)
                .value_parser(value_parser!(OsString))
                .help("A folder, with all below it; a tar file; or a list of names, one a line or each ended by a zero byte (- is a list on standard input)"),
        )
        .arg(
            Arg::new("tar")
                .long("tar")
                .value_name("FILE")
                .action(ArgAction::Append)
                .value_parser(value_parser!(OsString))
                .help("A tar stream; - is standard input. Links in it are not followed: make it with tar --dereference --hard-dereference"),
        )
        .arg(
            Arg::new("ending")
                .long("ending")
                .value_name("END")
                .value_parser(value_parser!(OsString))
                .help("Only files whose names end so, as .sheet; how many are left out is told"),
        )
        .arg(file("csv", "A line for each record to FILE: name, bytes, digest (SHA-256), line; - is standard output, and the page then goes to standard error"))
        .arg(file("html", "The report to FILE: counts, records by answer, sentence and picture of each broken one; one file, to open in a browser"))
        .arg(
            Arg::new("out")
                .long("out")
                .value_name("FOLDER")
                .value_parser(value_parser!(PathBuf))
                .conflicts_with_all(["csv", "html"])
                .help("All of it to FOLDER, which is made: page.txt, records.csv, sourceless.csv (those with a read byte without a source), report.html; with --compare differs.csv"),
        )
        .arg(
            Arg::new("compare")
                .long("compare")
                .value_name("OLD.csv")
                .value_parser(value_parser!(PathBuf))
                .help("What another judge said: a CSV with the columns name (as --csv has it) and verdict (pass or fail). Tells how many of its passes this judge refuses"),
        )
        .arg(file("differs", "With --compare: the records on which the two judges differ to FILE").requires("compare"))
        .arg(
            Arg::new("show")
                .long("show")
                .value_name("N")
                .default_value("200")
                .value_parser(shown)
                .help("How many records of each answer the report lists; all for all"),
        )
        .after_help(
            "Examples:\n  ./plimdrong audit examples/litmus --ending .sheet\n  ./plimdrong audit examples/litmus --ending .sheet --out target/audit\n  \
             find examples -name '*.sheet' -print0 | ./plimdrong audit - --csv target/records.csv\n  \
             tar cf - examples/litmus/*.sheet | ./plimdrong audit --tar - --html target/report.html\n  \
             ./plimdrong audit examples/litmus --ending .sheet --compare examples/audit/old.csv --differs target/differs.csv\n\n\
             Status: 0 all records are consistent; 1 some are not; 2 some could not be read, there was none, OLD.csv has none of them, or a report could not be written.",
        )
}

fn shown(word: &str) -> Result<Option<u64>, String> {
    match word {
        "all" => Ok(None),
        _ => word.parse().map(Some).map_err(|_| format!("write a number, as {SHOW}, or all")),
    }
}

fn run(matches: &ArgMatches) -> u8 {
    match audited(matches) {
        Ok(status) => status,
        Err(why) => {
            complain(why);
            FAILED
        }
    }
}

fn sources(matches: &ArgMatches) -> Result<Vec<Source>, Failure> {
    let mut all = vec![];
    for archive in matches.get_many::<OsString>("archive").into_iter().flatten() {
        all.push(Source::of(archive.as_bytes())?);
    }
    for file in matches.get_many::<OsString>("tar").into_iter().flatten() {
        all.push(Source::tar(file.as_bytes())?);
    }
    if all.is_empty() {
        return Err("there is nothing to audit: name a folder, a list or a tar file, as: plimdrong audit FOLDER".into());
    }
    if all.iter().filter(|source| source.name() == b"-").count() > 1 {
        return Err("standard input can be read once only: give - once".into());
    }
    apart(&all)?;
    Ok(all)
}

/// No source is another, and no folder lies in another: what stands in both would count twice.
fn apart(sources: &[Source]) -> Result<(), Failure> {
    let place = |source: &Source| real(Path::new(OsStr::from_bytes(source.name())));
    let named: Vec<(&Source, PathBuf)> =
        sources.iter().filter(|source| source.name() != b"-").map(|source| (source, place(source))).collect();
    for (i, (source, own)) in named.iter().enumerate() {
        for (before, other) in &named[..i] {
            let shown = names::shown(source.name());
            if own == other {
                return Err(format!("{shown}: named twice: its records would count twice"));
            }
            let folders = matches!((source, before), (Source::Folder(_), Source::Folder(_)));
            if folders && (own.starts_with(other) || other.starts_with(own)) {
                let other = names::shown(before.name());
                return Err(format!("{shown} and {other}: one lies in the other: its records would count twice"));
            }
        }
    }
    Ok(())
}

/// The files that are to be written.
struct Wanted {
    folder: Option<PathBuf>,
    csv: Option<PathBuf>,
    html: Option<PathBuf>,
    sourceless: Option<PathBuf>,
    differs: Option<PathBuf>,
    page: Option<PathBuf>,
}

impl Wanted {
    fn of(matches: &ArgMatches) -> Wanted {
        let path = |name: &str| matches.get_one::<PathBuf>(name).map(|path| output::named(path));
        let Some(folder) = path("out") else {
            let (csv, html, differs) = (path("csv"), path("html"), path("differs"));
            return Wanted { folder: None, csv, html, differs, sourceless: None, page: None };
        };
        let within = |name: &str| Some(folder.join(name));
        Wanted {
            csv: within("records.csv"),
            html: within("report.html"),
            sourceless: within("sourceless.csv"),
            differs: path("differs").or(matches.contains_id("compare").then(|| folder.join("differs.csv"))),
            page: within("page.txt"),
            folder: Some(folder),
        }
    }

    fn files(&self) -> impl Iterator<Item = &PathBuf> {
        [&self.csv, &self.html, &self.sourceless, &self.differs, &self.page].into_iter().flatten()
    }

    /// Each has a place of its own, outside the archive: what is written into it would be a record of it.
    fn places(&self, sources: &[Source], compare: Option<&Path>) -> Result<(), Failure> {
        let mut seen: Vec<PathBuf> = vec![];
        let inputs: Vec<PathBuf> = sources.iter().filter_map(Source::file).chain(compare).map(real).collect();
        for file in
            self.files().filter(|file| std::fs::metadata(file).is_ok_and(|about| about.is_file()) || !file.exists())
        {
            let shown = names::shown(file.as_os_str().as_bytes());
            let file = if file == Path::new("-") { file.clone() } else { real(file) };
            // the name that it has until it is whole is taken too
            let part = output::part(&file);
            if seen.contains(&file) || seen.contains(&part) {
                return Err(format!("{shown}: named twice: give each file a name of its own"));
            }
            if inputs.contains(&file) || inputs.contains(&part) {
                return Err(format!("{shown}: it is read here, and would be lost: name another place"));
            }
            for source in sources {
                let Source::Folder(folder) = source else {
                    continue;
                };
                if file != Path::new("-") && file.starts_with(real(Path::new(OsStr::from_bytes(folder)))) {
                    return Err(format!(
                        "{shown}: it would stand inside the archive, as a record of it: name another place"
                    ));
                }
            }
            seen.extend([file, part]);
        }
        Ok(())
    }
}

/// A path with its links resolved, as far as it is there.
fn real(path: &Path) -> PathBuf {
    let absolute = std::path::absolute(path).unwrap_or_else(|_| path.to_path_buf());
    let there = absolute.ancestors().find_map(|above| Some((above.canonicalize().ok()?, above)));
    match there {
        Some((real, above)) => real.join(absolute.strip_prefix(above).unwrap_or(Path::new(""))),
        None => absolute,
    }
}

fn audited(matches: &ArgMatches) -> Result<u8, Failure> {
    let sources = sources(matches)?;
    let wanted = Wanted::of(matches);
    let compare = matches.get_one::<PathBuf>("compare");
    wanted.places(&sources, compare.map(PathBuf::as_path))?;
    let compare = compare.map(|file| Compare::read(file)).transpose()?;
    if let Some(folder) = &wanted.folder {
        std::fs::create_dir_all(folder)
            .map_err(|e| format!("{}: {}", names::shown(folder.as_os_str().as_bytes()), failure(&e)))?;
    }
    if let (Some(folder), None) = (&wanted.folder, &wanted.differs) {
        compare::forget(&folder.join("differs.csv"))
            .map_err(|e| format!("differs.csv of an earlier audit: {}", failure(&e)))?;
    }
    let create = |path: &Option<PathBuf>| path.as_deref().map(Output::create).transpose();
    // all of them before the first record: what cannot be written is said at once
    let ends = Ends { html: create(&wanted.html)?, differs: create(&wanted.differs)?, page: create(&wanted.page)? };
    let show = *matches.get_one::<Option<u64>>("show").expect("it has a default");
    let report = ends.html.as_ref().map(|_| Report::new(show)).transpose().map_err(temporary)?;
    let sinks = Sinks::new(create(&wanted.csv)?, create(&wanted.sourceless)?, report, compare)?;

    let ending = matches.get_one::<OsString>("ending").map(|ending| ending.as_bytes());
    let bar = bar(&sources);
    let told = pipeline::judged(&sources, ending.unwrap_or_default(), sinks, &bar);
    bar.finish_and_clear();
    let told = told?;
    let archives = sources.iter().map(|source| names::shown(source.name())).collect();
    let left_out = ending.map(|ending| (names::shown(ending), told.left_out));
    let (summary, mut page) = ends.written(Summary { archives, left_out, ..Summary::default() }, told)?;

    if wanted.csv.is_none() && wanted.html.is_none() {
        page +=
            "\nA line for each record: --csv FILE. A report with pictures: --html FILE. Both and more: --out FOLDER.\n";
    }
    let takes_output = |path: &Option<PathBuf>| path.as_deref() == Some(Path::new("-"));
    if [&wanted.csv, &wanted.html, &wanted.differs].into_iter().any(takes_output) {
        let mut out = std::io::stderr().lock();
        out.write_all(page.as_bytes())
            .map_err(|e| format!("the page could not be written: standard error: {}", failure(&e)))?;
    } else {
        let mut out = std::io::stdout().lock();
        out.write_all(page.as_bytes())
            .and_then(|()| out.flush())
            .map_err(|e| format!("the page could not be written: standard output: {}", failure(&e)))?;
    }
    if summary.compared.as_ref().is_some_and(|all| all.both.is_empty()) {
        complain("the two judges have no record in common: let the names in OLD.csv be those of --csv, folder and all");
        return Ok(FAILED);
    }
    Ok(status(&summary.counts))
}

fn status(counts: &Counts) -> u8 {
    if counts.all() == 0 {
        complain("there was no record: check the archive's name. Nothing was judged, and that is no pass");
        FAILED
    } else if counts.of(Class::Unreadable) > 0 {
        FAILED
    } else if counts.consistent() < counts.all() {
        FOUND
    } else {
        DONE
    }
}

/// What is written at the end.
struct Ends {
    html: Option<Output>,
    differs: Option<Output>,
    page: Option<Output>,
}

impl Ends {
    /// Comparison, report and page of what was told; then every file gets its name. What it comes to, and the page.
    fn written(mut self, known: Summary, told: Told) -> Result<(Summary, String), Failure> {
        let mut compared = None;
        match (told.compare, &mut self.differs) {
            (Some(compare), Some(to)) => to.by(|to| compare.finish(to).map(|all| compared = Some(all)))?,
            (Some(compare), None) => compared = Some(compare.finish(&mut std::io::sink()).map_err(temporary)?),
            (None, _) => {}
        }
        let summary = Summary { counts: told.counts, compared, ..known };
        if let (Some(to), Some(report)) = (&mut self.html, told.report) {
            to.by(|to| report.finish(&summary, to))?;
        }
        let page = page::page(&summary, &told.sourceless, &told.lost);
        if let Some(to) = &mut self.page {
            to.put(page.as_bytes())?;
        }
        let mut outputs = told.outputs;
        outputs.extend([self.html, self.differs, self.page].into_iter().flatten());
        Output::finish_all(outputs)?;
        Ok((summary, page))
    }
}

/// What is wrong with a temporary file says itself what to do.
fn temporary(e: std::io::Error) -> Failure {
    e.to_string()
}

/// A bar on a terminal; in a log nothing. How many records there are is found out meanwhile.
fn bar(sources: &[Source]) -> ProgressBar {
    let bar = ProgressBar::new(0);
    if bar.is_hidden() {
        return bar;
    }
    let unknown = ProgressStyle::with_template("{spinner} {human_pos} records, {per_sec}").expect("a fixed form");
    let known = ProgressStyle::with_template("{bar:40} {human_pos} of {human_len} records, {per_sec}, {eta} left")
        .expect("a fixed form");
    bar.set_style(unknown);
    let folders: Option<Vec<Vec<u8>>> = sources
        .iter()
        .map(|source| match source {
            Source::Folder(folder) => Some(folder.clone()),
            _ => None,
        })
        .collect();
    if let Some(folders) = folders {
        let bar = bar.clone();
        std::thread::spawn(move || {
            bar.set_length(folders.iter().map(|folder| source::estimate(folder)).sum());
            bar.set_style(known);
        });
    }
    bar
}
