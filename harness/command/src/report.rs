//! The report of an audit: one page of HTML that needs nothing beside it. The same input gives the same bytes.
//!
//! What is listed of the records waits in a temporary file for each kind of answer, so memory does not grow with the
//! archive.

use crate::counts::{grouped, Compared, Counts, Old, Summary};
use crate::draw::picture;
use crate::names::{escaped, shown};
use crate::record::{Class, Record, Said};
use crate::scratch;
use crate::sentence::{besides, meaning};
use plimdrong::{refusal, why, Answer, Rule, Table};
use std::collections::btree_map::{BTreeMap, Entry};
use std::fs::File;
use std::io::{self, BufWriter, Seek, Write};

const STYLE: &str = include_str!("report.css");

/// A link to a section opens it. Without it the link leads there all the same.
const OPENS: &str = "function o(){var d=document.getElementById(location.hash.slice(1));if(d)d.open=true}\
                     addEventListener('hashchange',o);o()";

/// A section is open from the start where it lists no more than this and is not about what is consistent.
const OPEN: u64 = 25;

/// A report that is being collected.
pub struct Report {
    show: Option<u64>,
    sections: BTreeMap<Place, Section>,
    pictures: u64,
}

/// The place of a kind of answer in the report: worst first.
type Place = (u8, u8);

struct Section {
    class: Class,
    count: u64,
    listed: u64,
    items: BufWriter<File>,
}

fn place(class: Class) -> Place {
    match class {
        Class::Unreadable => (0, 0),
        Class::Refused(11) => (1, 0),
        Class::Refused(14) => (2, 0),
        Class::Refused(number) => (3, number),
        Class::Broken(rule) => (4, rule),
        Class::Unsettled => (5, 0),
        Class::Orderly => (6, 0),
    }
}

impl Report {
    /// `show`: how many records of each answer are listed (None: all). Fails at once where no temporary file can be
    /// made.
    pub fn new(show: Option<u64>) -> io::Result<Report> {
        scratch::file()?;
        Ok(Report { show, sections: BTreeMap::new(), pictures: 0 })
    }

    /// The next record, in order.
    pub fn add(&mut self, record: &Record) -> io::Result<()> {
        let class = record.said.class();
        let section = match self.sections.entry(place(class)) {
            Entry::Occupied(there) => there.into_mut(),
            Entry::Vacant(new) => new.insert(Section::new(class)?),
        };
        section.count += 1;
        if self.show.is_some_and(|show| section.listed >= show) {
            return Ok(());
        }
        section.listed += 1;
        let written = match &record.said {
            Said::Answer(answer @ Answer::Broken { .. }) => {
                self.pictures += 1;
                broken(&mut section.items, record, answer, &format!("p{}", self.pictures))
            }
            said => row(&mut section.items, record, said),
        };
        written.map_err(scratch::full)
    }

    pub fn finish(self, summary: &Summary, out: &mut dyn Write) -> io::Result<()> {
        let title = escaped(&title(&summary.archives));
        writeln!(out, "<!DOCTYPE html>\n<html lang=\"en\">\n<head>\n<meta charset=\"utf-8\">")?;
        writeln!(out, "<meta name=\"viewport\" content=\"width=device-width, initial-scale=1\">")?;
        writeln!(out, "<title>{title}</title>\n<style>\n{STYLE}</style>\n</head>\n<body>\n<main>\n<h1>{title}</h1>")?;
        question(out, summary)?;
        if summary.archives.len() > TITLED {
            archives(out, &summary.archives)?;
        }
        counts(out, &summary.counts)?;
        if let Some((ending, files)) = &summary.left_out {
            let (files, ending) = (grouped(*files), escaped(ending));
            writeln!(out, "<p>Left out, since their names do not end with {ending}: {files} files.</p>")?;
        }
        if let Some(compared) = &summary.compared {
            comparison(out, compared)?;
        }
        if !self.sections.is_empty() {
            writeln!(out, "<h2>The records by answer</h2>")?;
        }
        self.sections.into_values().try_for_each(|section| section.finish(out))?;
        writeln!(out, "</main>\n<script>{OPENS}</script>\n</body>\n</html>")
    }
}

/// How many archives the title names.
const TITLED: usize = 3;

fn title(archives: &[String]) -> String {
    match archives {
        [] => "Audit".to_string(),
        few if few.len() <= TITLED => format!("Audit of {}", few.join(", ")),
        many => format!("Audit of {} and {} more", many[..TITLED].join(", "), many.len() - TITLED),
    }
}

fn archives(out: &mut dyn Write, archives: &[String]) -> io::Result<()> {
    writeln!(out, "<details><summary>All {} archives</summary>\n<ul>", archives.len())?;
    archives.iter().try_for_each(|name| writeln!(out, "<li class=\"name\">{}</li>", escaped(name)))?;
    writeln!(out, "</ul>\n</details>")
}

fn records(number: u64) -> String {
    if number == 1 {
        "1 record".to_string()
    } else {
        format!("{} records", grouped(number))
    }
}

fn verb(number: u64, one: &'static str, many: &'static str) -> &'static str {
    if number == 1 {
        one
    } else {
        many
    }
}

/// The auditor's question and its answer: how many records have a read byte without a source, how many passes of
/// another judge this one refuses.
fn question(out: &mut dyn Write, summary: &Summary) -> io::Result<()> {
    let (all, sourceless) = (summary.counts.all(), summary.counts.of(Class::Refused(11)));
    let have = verb(sourceless, "has", verb(all, "has", "have"));
    let what = format!("of {} {have} a read byte without a source.", records(all));
    let mut more = "Such a record is refused 11: a byte that was read has no row that says who wrote it. 11 is asked \
                    for after all fields, and after 10 and 14. Of a record that is refused by another number nothing \
                    is said of its rows; it is no pass either."
        .to_string();
    match summary.counts.of(Class::Unreadable) {
        0 => {}
        number => more += &format!(" {} could not be read.", records(number)),
    }
    boxed(out, sourceless, &what, &more)?;
    summary.compared.as_ref().map_or(Ok(()), |compared| passes(out, compared))
}

fn passes(out: &mut dyn Write, compared: &Compared) -> io::Result<()> {
    let of_passes = |asked: &dyn Fn(Class) -> bool| compared.sum(|old, class| old == Old::Pass && asked(class));
    let passes = grouped(of_passes(&|_| true));
    let refused = of_passes(&|class| matches!(class, Class::Refused(_)));
    let sourceless = grouped(of_passes(&|class| class == Class::Refused(11)));
    let broken = of_passes(&|class| matches!(class, Class::Broken(_)));
    let (are, are_broken) = (verb(refused, "is", "are"), verb(broken, "is", "are"));
    let what = format!("of {passes} passes of the other judge {are} refused by this one.");
    let file = escaped(&compared.file);
    let more = format!(
        "Of these, {sourceless} for a read byte without a source (refused 11). Besides, {} of its passes {are_broken} \
         broken. The other judge&#39;s answers: {file}.",
        grouped(broken)
    );
    boxed(out, refused, &what, &more)
}

fn boxed(out: &mut dyn Write, number: u64, what: &str, more: &str) -> io::Result<()> {
    let found = if number > 0 { " found" } else { "" };
    writeln!(out, "<div class=\"question{found}\">")?;
    writeln!(out, "<p class=\"number\"><strong>{}</strong> {what}</p>", grouped(number))?;
    writeln!(out, "<p class=\"soft\">{more}</p>\n</div>")
}

/// A cell of numbers.
const N: &str = " class=\"n\"";

fn head(out: &mut dyn Write, class: &str, columns: &[(&str, &str)]) -> io::Result<()> {
    write!(out, "<table class=\"{class}\">\n<thead><tr>")?;
    columns.iter().try_for_each(|(name, n)| write!(out, "<th scope=\"col\"{n}>{name}</th>"))?;
    writeln!(out, "</tr></thead>\n<tbody>")
}

/// All counts: sums, and below each its parts, with links to the lists.
fn counts(out: &mut dyn Write, counts: &Counts) -> io::Result<()> {
    writeln!(out, "<h2>How many records got which answer</h2>")?;
    head(out, "counts", &[("Answer", ""), ("Meaning", ""), ("Records", N)])?;
    sum(out, "all", "", counts.all())?;
    sum(out, "consistent", "The memory model allows the execution: a pass.", counts.consistent())?;
    parts(out, counts, &[Class::Orderly, Class::Unsettled], |_| false)?;
    sum(out, "broken", "The memory model forbids the execution.", counts.broken())?;
    parts(out, counts, &[], |class| matches!(class, Class::Broken(_)))?;
    sum(out, "refused", "The record is no well-formed sheet.", counts.refused())?;
    let first = [Class::Refused(11), Class::Refused(14)];
    parts(out, counts, &first, |class| matches!(class, Class::Refused(_)) && !first.contains(&class))?;
    sum(out, "unreadable", meaning(Class::Unreadable), counts.of(Class::Unreadable))?;
    writeln!(out, "</tbody>\n</table>")
}

fn sum(out: &mut dyn Write, answer: &str, meaning: &str, number: u64) -> io::Result<()> {
    let number = grouped(number);
    let link = match answer {
        "unreadable" if number != "0" => "<a href=\"#unreadable\">unreadable</a>",
        _ => answer,
    };
    writeln!(out, "<tr class=\"sum\"><th scope=\"row\">{link}</th><td>{meaning}</td><td{N}>{number}</td></tr>")
}

/// The kinds that are always told, then those that were asked for and occur.
fn parts(out: &mut dyn Write, counts: &Counts, always: &[Class], asked: impl Fn(Class) -> bool) -> io::Result<()> {
    let others = counts.0.keys().copied().filter(|&class| asked(class));
    always.iter().copied().chain(others).try_for_each(|class| {
        let number = counts.of(class);
        let name = if number > 0 { format!("<a href=\"#{}\">{class}</a>", anchor(class)) } else { class.to_string() };
        let meaning = escaped(meaning(class));
        let number = grouped(number);
        writeln!(out, "<tr class=\"part\"><th scope=\"row\">{name}</th><td>{meaning}</td><td{N}>{number}</td></tr>")
    })
}

fn anchor(class: Class) -> String {
    class.to_string().replace(' ', "-")
}

/// Both judges' answers beside each other.
fn comparison(out: &mut dyn Write, compared: &Compared) -> io::Result<()> {
    writeln!(out, "<h2>Beside the other judge&#39;s answers</h2>")?;
    head(out, "counts judges", &[("This judge", ""), ("The other: pass", N), ("The other: fail", N)])?;
    let line = |out: &mut dyn Write, kind: &str, name: &str, asked: &dyn Fn(Class) -> bool| {
        let number = |which: Old| grouped(compared.sum(|old, class| old == which && asked(class)));
        let (pass, fail) = (number(Old::Pass), number(Old::Fail));
        write!(out, "<tr class=\"{kind}\"><th scope=\"row\">{name}</th>")?;
        writeln!(out, "<td{N}>{pass}</td><td{N}>{fail}</td></tr>")
    };
    line(out, "sum", "all", &|_| true)?;
    line(out, "sum", "consistent", &|class| matches!(class, Class::Orderly | Class::Unsettled))?;
    line(out, "sum", "broken", &|class| matches!(class, Class::Broken(_)))?;
    line(out, "sum", "refused", &|class| matches!(class, Class::Refused(_)))?;
    let mut numbers: Vec<Class> = compared.both.keys().map(|(_, class)| *class).collect();
    numbers.retain(|class| matches!(class, Class::Refused(_)));
    numbers.sort_by_key(|class| place(*class));
    numbers.dedup();
    numbers.iter().try_for_each(|&one| line(out, "part", &one.to_string(), &move |class| class == one))?;
    line(out, "sum", "unreadable", &|class| class == Class::Unreadable)?;
    writeln!(out, "</tbody>\n</table>")?;
    for (number, what) in [
        (compared.unsaid, "of the archive of which the other judge said nothing"),
        (compared.elsewhere, "of which the other judge speaks and which the archive does not have"),
    ] {
        if number > 0 {
            writeln!(out, "<p>{} {what}.</p>", records(number))?;
        }
    }
    if compared.twice > 0 {
        let names = if compared.twice == 1 { "name stands" } else { "names stand" };
        writeln!(
            out,
            "<p>{} {names} more than once in the other judge&#39;s file; the first counts.</p>",
            grouped(compared.twice)
        )?;
    }
    Ok(())
}

impl Section {
    fn new(class: Class) -> io::Result<Section> {
        Ok(Section { class, count: 0, listed: 0, items: BufWriter::new(scratch::file()?) })
    }

    fn finish(self, out: &mut dyn Write) -> io::Result<()> {
        let Section { class, count, listed, items } = self;
        let consistent = matches!(class, Class::Orderly | Class::Unsettled);
        let open = if listed <= OPEN && !consistent { " open" } else { "" };
        writeln!(out, "<details id=\"{}\"{open}>", anchor(class))?;
        write!(out, "<summary><h3>{class}</h3><span>{}</span>", records(count))?;
        writeln!(out, "<span class=\"soft\">{}</span></summary>", escaped(meaning(class)))?;
        if let Class::Refused(number) = class {
            let remedy = refusal(number).map_or("", |refusal| refusal.remedy);
            writeln!(out, "<p>{}</p>", escaped(remedy))?;
        }
        if count > listed {
            let left = grouped(count - listed);
            let first = match listed {
                0 => "None is".to_string(),
                1 => "The first is".to_string(),
                _ => format!("The first {} are", grouped(listed)),
            };
            writeln!(out, "<p>{first} listed here, {left} left out. The CSV has them all.</p>")?;
        }
        let table = !matches!(class, Class::Broken(_)) && listed > 0;
        if table {
            head(out, "records", &[("Record", ""), ("Line", ""), ("Bytes", N), ("SHA-256", "")])?;
        }
        let mut file = items.into_inner().map_err(|e| scratch::full(e.into_error()))?;
        file.rewind()?;
        io::copy(&mut file, out)?;
        if table {
            writeln!(out, "</tbody>\n</table>")?;
        }
        writeln!(out, "</details>")
    }
}

fn row(out: &mut impl Write, record: &Record, said: &Said) -> io::Result<()> {
    let name = escaped(&shown(&record.name));
    write!(out, "<tr><th scope=\"row\">{name}</th><td>{said}</td>")?;
    match record.bytes {
        Some((length, digest)) => {
            writeln!(out, "<td{N}>{}</td><td>{}</td></tr>", grouped(length), code(&digest))
        }
        None => writeln!(out, "<td></td><td></td></tr>"),
    }
}

/// A digest's first twelve digits; all of them in a title.
fn code(digest: &[u8; 32]) -> String {
    let hex: String = digest.iter().map(|byte| format!("{byte:02x}")).collect();
    format!("<code title=\"{hex}\">{}</code>", &hex[..12])
}

/// A broken record with its sentence and its picture.
fn broken(out: &mut impl Write, record: &Record, answer: &Answer, id: &str) -> io::Result<()> {
    let name = shown(&record.name);
    writeln!(out, "<article>\n<h4>{}</h4>", escaped(&name))?;
    write!(out, "<p class=\"soft\"><code>{answer}</code>")?;
    if let Some((length, digest)) = record.bytes {
        write!(out, ", {} bytes, SHA-256 {}", grouped(length), code(&digest))?;
    }
    let sentence = format!("{}{}", answer.explain(), besides(&record.sheet, answer));
    writeln!(out, "</p>\n<p>{}</p>", escaped(&sentence))?;
    if *answer == (Answer::Broken { rule: Rule::NoOrder }) {
        bars(out, &record.sheet)?;
    }
    if let Ok(table) = Table::of(&record.sheet) {
        let svg = picture(&record.sheet, &table, answer, &name, id);
        writeln!(out, "<figure tabindex=\"0\" aria-label=\"Its picture\">\n{svg}</figure>")?;
    }
    writeln!(out, "</article>")
}

/// Why no order exists: the kept bars, and the circle that they make.
fn bars(out: &mut impl Write, sheet: &[u8]) -> io::Result<()> {
    let Some(told) = why(sheet).in_words(sheet) else { return Ok(()) };
    writeln!(out, "<p>{LEAVE_NONE}:</p>\n<ul>")?;
    for bar in &told.bars {
        writeln!(out, "<li><code>{}</code>: {}</li>", bar.bar, escaped(&bar.sentence))?;
    }
    for reason in told.reasons() {
        writeln!(out, "<li class=\"soft\">{reason}: {}.</li>", escaped(reason.words()))?;
    }
    writeln!(out, "</ul>\n<p>In an order with these bars:</p>\n<ul>")?;
    told.circle_lines.iter().try_for_each(|line| writeln!(out, "<li>{}</li>", escaped(line)))?;
    writeln!(out, "</ul>")
}

const LEAVE_NONE: &str =
    "These bars, each by its reader, its writer and the write between, leave none, and without any one of \
                          them some order meets the others";

#[cfg(test)]
mod tests {
    use super::*;
    use crate::record::Unreadable;

    const STALE: &str = "head 1 1 1\ninit at 0: 00\nA1 write sc at 0: 01\nA1 read sc at 0: 00\nrow 2 0 0\n";

    fn record(name: &[u8], sheet: &[u8]) -> Record {
        let said = Said::Answer(plimdrong::judge(sheet));
        let keep = matches!(said.class(), Class::Broken(_));
        let bytes = Some((sheet.len() as u64, [0xab; 32]));
        Record { name: name.to_vec(), bytes, said, sheet: if keep { sheet.to_vec() } else { vec![] } }
    }

    fn unreadable(name: &[u8], why: Unreadable) -> Record {
        Record { name: name.to_vec(), bytes: None, said: Said::Unreadable(why), sheet: vec![] }
    }

    fn page(show: Option<u64>, records: &[Record], compared: Option<Compared>) -> String {
        let mut summary = Summary { archives: vec!["lab <1>".to_string()], compared, ..Summary::default() };
        let mut report = Report::new(show).unwrap();
        for record in records {
            summary.counts.add(record.said.class());
            report.add(record).unwrap();
        }
        let mut out = vec![];
        report.finish(&summary, &mut out).unwrap();
        String::from_utf8(out).unwrap()
    }

    fn some() -> Vec<Record> {
        let stale = STALE.parse::<Table>().unwrap().sheet().unwrap();
        let mut rowless = stale.clone();
        rowless.truncate(stale.len() - 6);
        vec![
            record(b"stale", &stale),
            record(b"rowless", &rowless),
            record(b"empty", b""),
            record(b"two\nlines<b>\xff", &rowless),
            unreadable(b"gone", Unreadable::Missing),
        ]
    }

    /// Markup without the style, the doctype and the two tags that do not end.
    fn check_markup(page: &str) {
        let (start, rest) = page.split_once("<style>").unwrap();
        let (_, rest) = rest.split_once("</style>").unwrap();
        let rest = rest.replace(OPENS, "");
        let page = format!("{start}{rest}").replace("<!DOCTYPE html>", "");
        let metas = page.lines().filter(|line| !line.starts_with("<meta")).collect::<Vec<_>>().join("\n");
        crate::draw::tests::well_formed(&metas);
    }

    #[test]
    fn what_stands_in_it() {
        let page = page(None, &some(), None);
        check_markup(&page);
        assert!(page.contains("<h1>Audit of lab &lt;1&gt;</h1>"));
        assert!(page.contains("<strong>2</strong> of 5 records have a read byte without a source."));
        assert!(page.contains(" 1 record could not be read."));
        assert!(page.contains("two\\nlines&lt;b&gt;\\xff") && !page.contains("lines<b>"));
        assert!(page.contains("<td>unreadable: no such file</td><td></td><td></td>"));
        assert!(page.contains("event 2 read byte 0 from event 0, but event 1 writes that byte too"));
        assert_eq!(page.matches("<figure ").count(), 1);
        assert!(page.contains(&format!("<code title=\"{}\">abababababab</code>", "ab".repeat(32))));
        let order = ["unreadable", "refused-11", "refused-3", "broken-24"]
            .map(|id| page.find(&format!("<details id=\"{id}\"")));
        assert!(order.iter().all(|at| at.is_some()) && order.is_sorted(), "{order:?}");
    }

    /// Why there is no order stands above the picture.
    #[test]
    fn without_an_order() {
        let sheet =
            std::fs::read(concat!(env!("CARGO_MANIFEST_DIR"), "/../../examples/litmus/07-store-buffering.sheet"));
        let page = page(None, &[record(b"lost", &sheet.unwrap())], None);
        check_markup(&page);
        let told = [
            "<code>broken 26 - - - -</code>",
            "<li><code>2 0 3</code>: event 2 (agent 1 reads byte 1, sc) read from event 0 (init of bytes 0 and 1); event 3 ",
            "<li><code>4 0 1</code>: ",
            "<li class=\"soft\">(c): the reader is sc, ",
            "<li>event 1 stands before event 2: it happens before it</li>",
            "(bar 4 0 1): and so event 1 would stand before itself.</li>",
            "<figure ",
            "bar 4 0 1: event 1 may not stand between events 0 and 4, by (c)",
        ]
        .map(|part| page.find(part));
        assert!(told.iter().all(|at| at.is_some()) && told.is_sorted(), "{told:?}");
    }

    #[test]
    fn the_same_bytes_twice() {
        assert_eq!(page(Some(1), &some(), None), page(Some(1), &some(), None));
    }

    #[test]
    fn no_more_than_asked_for() {
        let page = page(Some(1), &some(), None);
        assert!(page.contains("The first is listed here, 1 left out. The CSV has them all."));
        assert!(page.contains("rowless") && !page.contains("two\\nlines"));
        assert!(page.contains("<strong>2</strong> of 5 records"));
        let none = super::tests::page(Some(0), &some(), None);
        check_markup(&none);
        assert!(none.contains("None is listed here, 2 left out.") && !none.contains("<figure "));
    }

    #[test]
    fn nothing_to_tell() {
        let page = page(None, &[], None);
        check_markup(&page);
        assert!(page.contains("<strong>0</strong> of 0 records have") && !page.contains("<details"));
    }

    #[test]
    fn beside_another_judge() {
        let mut compared =
            Compared { file: "old&.csv".to_string(), unsaid: 1, elsewhere: 2, twice: 1, ..Compared::default() };
        for (key, number) in [
            ((Old::Pass, Class::Refused(11)), 2),
            ((Old::Pass, Class::Refused(3)), 1000),
            ((Old::Pass, Class::Orderly), 7),
            ((Old::Fail, Class::Broken(24)), 3),
        ] {
            compared.both.insert(key, number);
        }
        let page = page(None, &some(), Some(compared));
        check_markup(&page);
        assert!(page.contains("<strong>1,002</strong> of 1,009 passes of the other judge are refused by this one."));
        assert!(page.contains("Besides, 0 of its passes are broken."));
        assert!(page.contains("Of these, 2 for a read byte without a source (refused 11)."));
        assert!(page.contains("old&amp;.csv") && page.contains("1 name stands more than once"));
        assert!(page.find("of 5 records have") < page.find("1,009 passes"));
    }
}
