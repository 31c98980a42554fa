//! The picture of a sheet and of what was said of it: an SVG.
//!
//! A column for the inits and for each agent, events from top to bottom in the order that was reported (in the
//! sheet's order where there is none), a line from each writer to its reader, dashed lines for pairs. What the answer
//! names has a thick red edge and says its part. Of a list of events the order is the list's, and what is wrong with it is
//! red: its numbers, its events, the row or the step of happens-before that it goes against. Of a sheet without an order the
//! kept bars are red, and so is the circle that they make with happens-before.

use crate::layout::{Layout, Rect, Wanted, WantedBox, WantedLine};
use crate::names::escaped;
use crate::said::Said;
use crate::write::{carry, one_to_one, Made};
use crate::{Entry, FOUND};
use clap::{ArgMatches, Command};
use plimdrong::{mode, Answer, Event, Judge, Table};
use std::collections::BTreeSet;
use std::fmt::Write;

pub const ENTRY: Entry = Entry { command, run };

fn command() -> Command {
    one_to_one("draw", "A sheet", "the picture, an SVG,")
        .about("Draws a sheet and its verdict: events by agent in the order reported, lines from writers to readers, what the verdict names in red; where no order exists the bars that leave none, and their circle")
        .after_help(
            "Example:\n  ./plimdrong draw examples/litmus/12-torn.sheet -o target/torn.svg\n\n\
             Status: 0 drawn; 1 the sheet is refused, and there is nothing to draw; 2 a file cannot be read or written.",
        )
}

fn run(matches: &ArgMatches) -> u8 {
    carry(matches, false, drawn)
}

fn drawn(file: &str, sheet: &[u8]) -> Made {
    let answer = Judge::new().judge(sheet);
    let table = Table::of(sheet)
        .map_err(|refused| (FOUND, format!("{file}: {refused}: there is nothing to draw. {}", refused.explain())))?;
    Ok(picture(sheet, &table, &answer, file, "sheet").into_bytes())
}

/// Writes to a `String`, which takes all that is written.
macro_rules! put {
    ($s:expr, $($text:tt)*) => {{
        let _ = write!($s, $($text)*);
    }};
}

/// A picture of a well-formed sheet, its table and its answer. `name` is the sheet's, `id` stands in front of every id, so
/// that many pictures can stand in one page: letters, digits and hyphens.
pub fn picture(sheet: &[u8], table: &Table, answer: &Answer, name: &str, id: &str) -> String {
    told(table, &Said::of_sheet(sheet, answer, table.events.len()), name, id)
}

/// The same, whatever was said of it.
pub fn told(table: &Table, said: &Said, name: &str, id: &str) -> String {
    Picture::of(table, said).svg(name, id)
}

const TOP: i32 = 104;
const BOTTOM: i32 = 46;
const LINE: i32 = 16;
/// Left and right of a box's text, above and below it.
const PAD: (i32, i32) = (10, 7);
/// Widths of a character in tenths of a pixel: monospace at 12 and 11 pixels, bold sans-serif at 11, 12 and 16.
const MONO: i32 = 73;
const NOTE: i32 = 67;
const ROLE: i32 = 72;
const FAULT: i32 = 70;
const HEADING: i32 = 92;
/// From a line of the heading to the next, and from one that tells what signs mean.
const HEADING_LINE: i32 = 20;
const LEGEND_LINE: i32 = 20;
/// Data of more bytes than this is cut; the box's title has all of it.
const BYTES_SHOWN: usize = 8;
/// How long a line of a box may get, in characters, before it is broken.
const LINE_LENGTH: usize = 27;

fn pixels(characters: usize, width: i32) -> i32 {
    (characters as i32 * width + 9) / 10
}

#[derive(Clone, Copy, PartialEq, Eq)]
enum Kind {
    Row,
    /// A row that a kept bar is of.
    Barred,
    Pair,
    /// Happens-before, where neither a row nor a pair says it.
    Before,
    /// What a bar forces.
    Forced,
}

struct Line {
    from: usize,
    to: usize,
    kind: Kind,
    named: bool,
}

/// A box's text in lines: what the event does, its data, whether it may tear though the rule says otherwise, and which
/// byte came from which writer.
struct Words {
    does: String,
    data: Vec<String>,
    may_tear: bool,
    sources: Vec<String>,
}

struct Picture<'a> {
    table: &'a Table,
    said: &'a Said,
    /// The agents that have a column; 0 for the inits.
    agents: Vec<u8>,
    /// By event.
    words: Vec<Words>,
    roles: Vec<Option<&'static str>>,
    /// Between events.
    lines: Vec<Line>,
    /// Where the boxes begin.
    top: i32,
    layout: Layout,
}

/// A line for each writer and reader, one for each pair. A row or pair whose events are not there has none.
fn lines(table: &Table, said: &Said) -> Vec<Line> {
    let rows: BTreeSet<(u8, u8)> = table.rows.iter().map(|row| (row.writer, row.reader)).collect();
    let kind = |ends| if said.barred.contains(&ends) { Kind::Barred } else { Kind::Row };
    let rows = rows.into_iter().map(|ends| (ends, kind(ends), said.rows.contains(&ends)));
    let pairs = table.pairs.iter().map(|pair| ((pair.first, pair.second), Kind::Pair, false));
    let mut lines: Vec<((u8, u8), Kind, bool)> = rows.chain(pairs).collect();
    for &before in &said.before {
        match lines.iter_mut().find(|(ends, ..)| *ends == before) {
            Some((.., named)) => *named = true,
            None => lines.push((before, Kind::Before, true)),
        }
    }
    lines.extend(said.forced.iter().map(|&ends| (ends, Kind::Forced, false)));
    let lines = lines.into_iter();
    lines
        .map(|((from, to), kind, named)| Line { from: from.into(), to: to.into(), kind, named })
        .filter(|line| line.from != line.to && line.from.max(line.to) < table.events.len())
        .collect()
}

fn may_tear(event: &Event) -> bool {
    let Event { kind, mode, start, width, tear, .. } = *event;
    mode == mode::UNORDERED && tear == 0 && Event::tear_by_the_rule(kind, mode, start, width) == 1
}

impl Words {
    /// The event's text form in lines. The agent is left out: the column says it.
    fn of(table: &Table, e: usize) -> Words {
        let event = &table.events[e];
        let text = event.to_string();
        let (does, data) = text.split_once(':').unwrap_or((&text, ""));
        let agent = format!("A{} ", event.agent);
        let does = does.strip_prefix(&agent).unwrap_or(does).replace(" may-tear", "");
        Words { does, data: data_lines(data), may_tear: may_tear(event), sources: sources(table, e) }
    }

    fn notes(&self) -> impl Iterator<Item = &str> {
        self.may_tear.then_some("may tear").into_iter().chain(self.sources.iter().map(|source| source.as_str()))
    }

    fn lines(&self) -> usize {
        1 + self.data.len() + self.notes().count()
    }

    fn width(&self, event: usize, role: Option<&str>) -> i32 {
        let first = pixels(event.to_string().len() + 1 + self.does.len(), MONO);
        let first = first + role.map_or(0, |role| 14 + pixels(role.len(), ROLE));
        let data = self.data.iter().map(|line| pixels(line.chars().count(), MONO));
        let notes = self.notes().map(|line| pixels(line.len(), NOTE));
        2 * PAD.0 + data.chain(notes).fold(first.max(96), i32::max)
    }
}

/// Data bytes in one line; those of a read-modify-write in two where they are long.
fn data_lines(data: &str) -> Vec<String> {
    let runs: Vec<String> = data.split("->").map(|run| cut(run.trim())).collect();
    match &runs[..] {
        [seen, written] if seen.len() + written.len() + 4 > LINE_LENGTH => vec![seen.clone(), format!("-> {written}")],
        [run] if run.is_empty() => vec![],
        runs => vec![runs.join(" -> ")],
    }
}

fn cut(run: &str) -> String {
    let bytes: Vec<&str> = run.split(' ').collect();
    match bytes.get(..BYTES_SHOWN) {
        Some(shown) if bytes.len() > BYTES_SHOWN => format!("{} \u{2026} ({} bytes)", shown.join(" "), bytes.len()),
        _ => run.to_string(),
    }
}

/// Which byte came from which writer, in lines.
fn sources(table: &Table, e: usize) -> Vec<String> {
    let mut writers: Vec<(u8, Vec<u8>)> = vec![];
    for row in table.rows.iter().filter(|row| usize::from(row.reader) == e) {
        match writers.iter_mut().find(|(writer, _)| *writer == row.writer) {
            Some((_, addresses)) => addresses.push(row.address),
            None => writers.push((row.writer, vec![row.address])),
        }
    }
    let mut lines: Vec<String> = vec![];
    for (writer, addresses) in writers {
        let bytes = if addresses.len() == 1 { "byte" } else { "bytes" };
        let piece = format!("{bytes} {} from {writer}", runs(&addresses));
        match lines.last_mut() {
            Some(line) if line.len() + 2 + piece.len() <= LINE_LENGTH + 3 => *line = format!("{line}, {piece}"),
            _ => lines.push(piece),
        }
    }
    lines
}

/// Addresses with spaces between, three and more in a row as `0-2`.
fn runs(addresses: &[u8]) -> String {
    let mut runs: Vec<(u8, u8)> = vec![];
    for &a in addresses {
        match runs.last_mut() {
            Some((_, last)) if last.checked_add(1) == Some(a) => *last = a,
            _ => runs.push((a, a)),
        }
    }
    let text = |(first, last): &(u8, u8)| match last - first {
        0 => first.to_string(),
        1 => format!("{first} {last}"),
        _ => format!("{first}-{last}"),
    };
    runs.iter().map(text).collect::<Vec<_>>().join(" ")
}

impl<'a> Picture<'a> {
    fn of(table: &'a Table, said: &'a Said) -> Picture<'a> {
        let order = &said.order;
        let agents: BTreeSet<u8> = table.events.iter().map(|event| event.agent).collect();
        let agents: Vec<u8> = agents.into_iter().collect();
        let words: Vec<Words> = (0..order.len()).map(|e| Words::of(table, e)).collect();
        let mut roles = vec![None; order.len()];
        for &(event, role) in &said.roles {
            if let Some(place) = roles.get_mut(usize::from(event)) {
                *place = Some(role);
            }
        }
        let lines = lines(table, said);
        let wanted = wanted(table, order, &agents, &words, &roles, &lines);
        let more = usize::from(!said.list.is_empty()) + said.faults.len();
        let top = TOP + HEADING_LINE * more as i32;
        let layout = Layout::of(&wanted, top, BOTTOM);
        Picture { table, said, agents, words, roles, lines, top, layout }
    }

    fn svg(&self, name: &str, id: &str) -> String {
        let line = &self.said.line;
        let list = self.said.list.iter().map(|(piece, _)| piece.chars().count() + 1).sum();
        let fault = self.said.faults.iter().map(|fault| fault.chars().count()).max().unwrap_or(0);
        let texts = pixels(line.len(), HEADING).max(70 + pixels(list, MONO)).max(pixels(fault, FAULT));
        let width = self.layout.width.max(40 + texts).max(480);
        let legend = self.legend(width);
        let height = self.layout.height + LEGEND_LINE * (legend.len() as i32 - 1).max(0);
        let mut s = String::with_capacity(8192);
        put!(
            s,
            "<svg xmlns='http://www.w3.org/2000/svg' viewBox='0 0 {width} {height}' width='{width}' height='{height}'"
        );
        put!(
            s,
            " role='img' aria-labelledby='{id}-title {id}-desc' font-family='system-ui, sans-serif' font-size='12'>\n"
        );
        put!(s, "<title id='{id}-title'>{}: {line}</title>\n", escaped(name));
        put!(s, "<desc id='{id}-desc'>{}</desc>\n", escaped(&self.description()));
        put!(s, "<rect width='{width}' height='{height}' fill='#fff'/>\n");
        self.heading(&mut s, name, width);
        self.columns(&mut s);
        self.all_lines(&mut s);
        self.boxes(&mut s);
        legend.iter().for_each(|line| s.push_str(line));
        s.push_str("</svg>\n");
        s
    }

    /// All that the picture shows, in sentences.
    fn description(&self) -> String {
        let agents = self.agents.iter().filter(|&&agent| agent > 0).count();
        let agents = if agents == 1 { "1 agent".to_string() } else { format!("{agents} agents") };
        let Said { sentences, order, downwards, .. } = self.said;
        let mut text = format!("{sentences} {agents}, {} events. {downwards}", order.len());
        if !self.said.list.is_empty() {
            let list: Vec<&str> = self.said.list.iter().map(|(piece, _)| piece.as_str()).collect();
            put!(text, " The list: {}.", list.join(" "));
        }
        for &e in order {
            put!(text, " Event {e}: {}", self.table.events[e]);
            self.words[e].sources.iter().for_each(|source| put!(text, "; {source}"));
            self.roles[e].iter().for_each(|role| put!(text, "; {role}"));
            text.push('.');
        }
        for pair in &self.table.pairs {
            put!(text, " A pair: marker {} before marker {}.", pair.first, pair.second);
        }
        text
    }

    fn heading(&self, s: &mut String, name: &str, width: i32) {
        let room = ((width - 40) / 8).max(20) as usize;
        let Said { line, downwards, list, faults, .. } = self.said;
        put!(s, "<text x='20' y='24' fill='#555'>{}</text>\n", escaped(&clipped(name, room)));
        put!(s, "<text x='20' y='46' fill='#111' font-size='16' font-weight='bold'>{line}</text>\n");
        put!(s, "<text x='20' y='66' fill='#555'>{downwards}</text>\n");
        let mut y = 66;
        if !list.is_empty() {
            y += HEADING_LINE;
            put!(s, "<text x='20' y='{y}' fill='#555'>The list: <tspan {MONOSPACE} fill='#111'>");
            for (i, (piece, wrong)) in list.iter().enumerate() {
                let colour = if *wrong { " fill='#c00' font-weight='bold'" } else { "" };
                put!(s, "{}<tspan{colour}>{}</tspan>", if i > 0 { " " } else { "" }, escaped(piece));
            }
            s.push_str("</tspan></text>\n");
        }
        for fault in faults {
            y += HEADING_LINE;
            put!(s, "<text x='20' y='{y}' fill='#c00' font-weight='bold'>{}</text>\n", escaped(fault));
        }
    }

    fn columns(&self, s: &mut String) {
        let (top, height) = (self.top - 24, self.layout.height - BOTTOM - self.top + 30);
        for (&agent, &(x, width)) in self.agents.iter().zip(&self.layout.columns) {
            let name = if agent == 0 { "inits".to_string() } else { format!("agent {agent}") };
            let (left, wide) = (x - 7, width + 14);
            put!(s, "<rect x='{left}' y='{top}' width='{wide}' height='{height}' rx='8' fill='#f0f2f5'/>");
            put!(s, "<text x='{x}' y='{}' fill='#444' font-weight='bold'>{name}</text>\n", self.top - 8);
        }
    }

    fn all_lines(&self, s: &mut String) {
        for stroke in [ROW, BARRED, PAIR, NAMED, FORCED] {
            let lines = self.lines.iter().zip(&self.layout.lines).filter(|(line, _)| line.stroke() == stroke);
            stroke.put(s, &lines.map(|(_, points)| *points).collect::<Vec<_>>());
        }
    }

    fn boxes(&self, s: &mut String) {
        put!(s, "<g {MONOSPACE}>\n");
        for (&e, place) in self.said.order.iter().zip(&self.layout.boxes) {
            self.one_box(s, e, place);
        }
        s.push_str("</g>\n");
    }

    fn one_box(&self, s: &mut String, e: usize, place: &Rect) {
        let Rect { x, y, width, height } = *place;
        let words = &self.words[e];
        let edge = if self.roles[e].is_some() { NAMED_EDGE } else { "stroke='#7a808a'" };
        put!(s, "<g><title>{e} {}</title>", escaped(&self.table.events[e].to_string()));
        put!(s, "<rect x='{x}' y='{y}' width='{width}' height='{height}' rx='5' fill='#fff' {edge}/>");
        let (left, right) = (x + PAD.0, x + width - PAD.0);
        let mut base = y + (height - words.lines() as i32 * LINE) / 2 + 12;
        put!(s, "<text x='{left}' y='{base}' fill='#111'><tspan font-weight='bold'>{e}</tspan> {}</text>", words.does);
        if let Some(role) = self.roles[e] {
            let style = "fill='#c00' font-size='11' font-weight='bold' text-anchor='end'";
            put!(s, "<text x='{right}' y='{base}' {style}>{role}</text>");
        }
        for line in &words.data {
            base += LINE;
            put!(s, "<text x='{left}' y='{base}' fill='#111'>{}</text>", escaped(line));
        }
        for line in words.notes() {
            base += LINE;
            put!(s, "<text x='{left}' y='{base}' fill='#555' font-size='11'>{line}</text>");
        }
        s.push_str("</g>\n");
    }

    /// Lines of what the signs mean, as many as the width asks for.
    fn legend(&self, width: i32) -> Vec<String> {
        let mut signs: Vec<(String, &str)> = vec![];
        let arrow = |stroke: Stroke| {
            let mut sign = String::new();
            stroke.put(&mut sign, &[[(0, -4), (15, -4), (15, -4), (30, -4)]]);
            sign
        };
        let has = |kind: Kind| self.lines.iter().any(|line| line.kind == kind);
        if has(Kind::Row) {
            signs.push((arrow(ROW), "writer to reader"));
        }
        if has(Kind::Barred) {
            signs.push((arrow(BARRED), "writer to reader, of a bar"));
        }
        if has(Kind::Pair) {
            signs.push((arrow(PAIR), "pair"));
        }
        if has(Kind::Before) {
            signs.push((arrow(NAMED), "happens before"));
        }
        if has(Kind::Forced) {
            signs.push((arrow(FORCED), "stands before, by a bar"));
        }
        if self.roles.iter().any(|role| role.is_some()) {
            let sign = format!("<rect x='2' y='-11' width='26' height='13' rx='3' fill='#fff' {NAMED_EDGE}/>");
            signs.push((sign, if self.said.barred.is_empty() { "named by the answer" } else { "in a bar" }));
        }
        let mut lines: Vec<String> = vec![];
        let mut x = width;
        for (sign, words) in signs {
            let wide = 56 + pixels(words.len(), 62);
            if x + wide > width {
                x = 20;
                lines.push(String::new());
            }
            let y = self.layout.height - 16 + LEGEND_LINE * (lines.len() as i32 - 1);
            if let Some(line) = lines.last_mut() {
                put!(line, "<g transform='translate({x} {y})'>\n{sign}<text x='36' fill='#555'>{words}</text></g>\n");
            }
            x += wide;
        }
        lines
    }
}

#[derive(PartialEq, Eq)]
struct Stroke {
    colour: &'static str,
    width: &'static str,
    dashes: &'static str,
}

const ROW: Stroke = Stroke { colour: "#555", width: "1.3", dashes: "" };
const BARRED: Stroke = Stroke { colour: "#c00", width: "1.3", dashes: "" };
const FORCED: Stroke = Stroke { colour: "#c00", width: "2.8", dashes: " stroke-dasharray='7 4'" };
const PAIR: Stroke = Stroke { colour: "#1d4fd7", width: "1.5", dashes: " stroke-dasharray='6 4'" };
const NAMED: Stroke = Stroke { colour: "#c00", width: "2.8", dashes: "" };
const MONOSPACE: &str = "font-family='ui-monospace, \"DejaVu Sans Mono\", Menlo, Consolas, monospace'";
const NAMED_EDGE: &str = "stroke='#c00' stroke-width='3'";

impl Line {
    fn stroke(&self) -> Stroke {
        match self.kind {
            _ if self.named => NAMED,
            Kind::Pair => PAIR,
            Kind::Barred => BARRED,
            Kind::Forced => FORCED,
            Kind::Row | Kind::Before => ROW,
        }
    }
}

impl Stroke {
    /// The lines, and then their arrowheads, which have no dashes.
    fn put(&self, s: &mut String, lines: &[[(i32, i32); 4]]) {
        let Stroke { colour, width, dashes } = self;
        if lines.is_empty() {
            return;
        }
        put!(s, "<g fill='none' stroke='{colour}' stroke-width='{width}'{dashes}>");
        lines.iter().for_each(|points| put!(s, "<path d='{}'/>", way(points)));
        put!(s, "</g>\n<g fill='{colour}'>");
        lines.iter().for_each(|points| put!(s, "<path d='{}'/>", head(points)));
        s.push_str("</g>\n");
    }
}

/// The path of a line, with round corners. It ends inside the arrowhead.
fn way(&[(x0, y0), (lane, _), _, (x1, y1)]: &[(i32, i32); 4]) -> String {
    let r = ((y1 - y0).abs() / 2).min(6);
    let (down, before, after) = (r * (y1 - y0).signum(), r * (lane - x0).signum(), r * (x1 - lane).signum());
    format!(
        "M{x0} {y0}H{}Q{lane} {y0} {lane} {}V{}Q{lane} {y1} {} {y1}H{}",
        lane - before,
        y0 + down,
        y1 - down,
        lane + after,
        x1 - 6 * (x1 - lane).signum()
    )
}

fn head(&[_, (lane, _), _, (x, y)]: &[(i32, i32); 4]) -> String {
    format!("M{x} {y}l{} -4v8z", if lane < x { -8 } else { 8 })
}

fn wanted(
    table: &Table,
    order: &[usize],
    agents: &[u8],
    words: &[Words],
    roles: &[Option<&str>],
    lines: &[Line],
) -> Wanted {
    let mut row = vec![0; order.len()];
    order.iter().enumerate().for_each(|(k, &e)| row[e] = k);
    let a_box = |&e: &usize| WantedBox {
        column: agents.iter().position(|&agent| agent == table.events[e].agent).unwrap_or(0),
        width: words[e].width(e, roles[e]),
        height: 2 * PAD.1 + LINE * words[e].lines() as i32,
    };
    Wanted {
        columns: agents.len(),
        boxes: order.iter().map(a_box).collect(),
        lines: lines.iter().map(|line| WantedLine { from: row[line.from], to: row[line.to] }).collect(),
    }
}

/// The end of a text that is too long, where a path has its file's name.
fn clipped(text: &str, room: usize) -> String {
    let length = text.chars().count();
    if length <= room {
        return text.to_string();
    }
    let end: String = text.chars().skip(length - room + 1).collect();
    format!("\u{2026}{end}")
}

#[cfg(test)]
pub mod tests {
    use super::*;
    use crate::layout::tests::check;
    use plimdrong::{judge, Head, Pair, Row};

    fn litmus() -> Vec<(String, Vec<u8>)> {
        let folder = concat!(env!("CARGO_MANIFEST_DIR"), "/../../examples/litmus");
        let mut files: Vec<_> = std::fs::read_dir(folder).unwrap().map(|entry| entry.unwrap().path()).collect();
        files.retain(|file| file.extension().is_some_and(|end| end == "sheet"));
        files.sort();
        let name = |file: &std::path::Path| file.file_name().unwrap().to_str().unwrap().to_string();
        files.iter().map(|file| (name(file), std::fs::read(file).unwrap())).collect()
    }

    /// Panics where tags do not match or a text has a bare `<` or `&`.
    pub fn well_formed(xml: &str) {
        let mut open: Vec<&str> = vec![];
        for part in xml.split('<').skip(1) {
            let (tag, text) = part.split_once('>').expect("a tag that ends");
            assert!(!text.contains('>') && tag.matches('\'').count() % 2 == 0, "{part}");
            assert!(part.chars().all(|c| c == '\n' || !c.is_control()), "{part}");
            for entity in part.split('&').skip(1) {
                assert!(["amp;", "lt;", "gt;", "quot;", "#39;"].iter().any(|e| entity.starts_with(e)), "{part}");
            }
            match tag.strip_prefix('/') {
                Some(name) => assert_eq!(open.pop(), Some(name), "{part}"),
                None if tag.ends_with('/') => {}
                None => open.push(tag.split(' ').next().unwrap()),
            }
        }
        assert!(open.is_empty(), "{open:?}");
    }

    fn check_picture(table: &Table, answer: &Answer, name: &str) {
        check_told(table, &Said::of_sheet(&table.sheet().unwrap(), answer, table.events.len()), name);
    }

    /// What every picture must be like.
    pub fn check_told(table: &Table, said: &Said, name: &str) {
        let picture = Picture::of(table, said);
        let wanted = wanted(table, &said.order, &picture.agents, &picture.words, &picture.roles, &picture.lines);
        check(&picture.layout, &wanted);
        let svg = picture.svg(name, "p7");
        well_formed(&svg);
        for (e, event) in table.events.iter().enumerate() {
            let title = format!("<g><title>{e} {}</title>", escaped(&event.to_string()));
            assert_eq!(svg.matches(&title).count(), 1, "{name} {e}");
        }
        assert_eq!(
            svg.matches(&format!("{NAMED_EDGE}/><text")).count(),
            said.roles.len() + usize::from(!said.roles.is_empty())
        );
        assert_eq!(svg.matches(" fill='#c00' font-weight='bold'>").count(), {
            said.list.iter().filter(|(_, wrong)| *wrong).count() + said.faults.len()
        });
        assert_eq!(svg.matches(" id='").count(), svg.matches(" id='p7-").count());
        assert_eq!(svg, told(table, said, name, "p7"));
    }

    #[test]
    fn every_litmus_sheet() {
        let mut drawn = 0;
        for (name, sheet) in litmus() {
            if let Ok(table) = Table::of(&sheet) {
                check_picture(&table, &judge(&sheet), &name);
                drawn += 1;
            }
        }
        assert!(drawn > 60, "{drawn}");
    }

    fn draw_text(text: &str) -> String {
        let table: Table = text.parse().unwrap();
        let answer = judge(&table.sheet().unwrap());
        check_picture(&table, &answer, "a sheet");
        picture(&table.sheet().unwrap(), &table, &answer, "a sheet", "p")
    }

    #[test]
    fn what_is_named_says_its_part() {
        let torn = draw_text(
            "head 1 3 2\ninit at 0: 00 00\nA1 write unordered at 0: 01 01\nA2 write unordered at 0: 02 02\n\
             A3 read unordered at 0: 01 02\nrow 3 0 1\nrow 3 1 2\n",
        );
        assert_eq!(torn.matches(">writer<").count(), 2);
        assert_eq!(torn.matches(">reader<").count(), 1);
        assert!(torn.contains("byte 0 from 1, byte 1 from 2"));
        assert!(torn.contains("<g fill='none' stroke='#c00' stroke-width='2.8'>"));
        let stale = draw_text("head 1 1 1\ninit at 0: 00\nA1 write sc at 0: 01\nA1 read sc at 0: 00\nrow 2 0 0\n");
        assert!([">reader<", ">writer<", ">between<"].iter().all(|role| stale.matches(role).count() == 1));
        let unsettled = draw_text(
            "head 1 2 1\ninit at 0: 00\nA1 write unordered at 0: 01\nA2 read unordered at 0: 00\nrow 2 0 0\n",
        );
        assert_eq!(unsettled.matches(">unsettled<").count(), 2);
    }

    #[test]
    fn long_data_is_cut_and_whole_in_the_title() {
        let svg = draw_text(&format!(
            "head 2 1 64\ninit at 0:{}\nA1 rmw sc at 0: 00 00 00 00 00 00 00 00 -> 01 02 03 04 05 06 07 08\n\
             A1 read unordered may-tear at 0: 01 02\n{}row 2 0 1\nrow 2 1 1\n",
            " 00".repeat(64),
            (0..8).map(|a| format!("row 1 {a} 0\n")).collect::<String>()
        ));
        assert!(svg.contains(&format!("<g><title>0 init at 0:{}</title>", " 00".repeat(64))));
        assert!(svg.contains(">00 00 00 00 00 00 00 00 \u{2026} (64 bytes)<"));
        assert!(svg.contains(">00 00 00 00 00 00 00 00<") && svg.contains(">-&gt; 01 02 03 04 05 06 07 08<"));
        assert!(svg.contains(">may tear<") && svg.contains(">bytes 0-7 from 0<") && svg.contains(">bytes 0 1 from 1<"));
    }

    #[test]
    fn a_name_stays_text() {
        let table: Table = "head 1 1 1\nA1 read sc at 0: 00\nA1 write sc at 0: 00\nrow 0 0 1\n".parse().unwrap();
        for name in ["<b>'\"&", "a\u{0}\u{1b}\nb", "\u{ffff}", &"long/".repeat(99), ""] {
            check_picture(&table, &judge(&table.sheet().unwrap()), name);
        }
    }

    /// As much as a sheet can hold: 4 inits, 18 events of 8 agents, 32 pairs, 8 writers for one read.
    #[test]
    fn the_fullest() {
        let mut table = Table { head: Head { edition: 2, agents: 8, memory: 64 }, ..Table::default() };
        table.events = (0..4).map(|i| Event::init(16 * i, &[0; 16])).collect();
        table.events.extend((0..7).map(|i| Event::write(i + 1, mode::UNORDERED, i, &[i])));
        table.events.push(Event::read(8, mode::UNORDERED, 0, &[0, 1, 2, 3, 4, 5, 6, 0]).may_tear());
        table.events.extend((1..=8).chain(1..=2).map(Event::marker));
        table.rows = (0..8).map(|a| Row { reader: 11, address: a, writer: if a < 7 { 4 + a } else { 0 } }).collect();
        let all = (12..22).flat_map(|first| (first + 1..22).map(move |second| Pair { first, second }));
        table.pairs = all.filter(|pair| pair.second - pair.first != 8).take(32).collect();
        assert_eq!((table.events.len(), table.pairs.len()), (22, 32));
        check_picture(&table, &judge(&table.sheet().unwrap()), "the fullest");
    }

    /// Made anew with `./plimdrong draw examples/litmus/12-torn.sheet -o docs/pictures/litmus-12.svg` and its like.
    #[test]
    fn the_documents_pictures() {
        let root = concat!(env!("CARGO_MANIFEST_DIR"), "/../..");
        for (sheet, drawn) in [("12-torn", "litmus-12"), ("15-markers", "litmus-15")] {
            let name = format!("examples/litmus/{sheet}.sheet");
            let sheet = std::fs::read(format!("{root}/{name}")).unwrap();
            let svg = picture(&sheet, &Table::of(&sheet).unwrap(), &judge(&sheet), &name, "sheet");
            let file = format!("{root}/docs/pictures/{drawn}.svg");
            assert_eq!(std::fs::read_to_string(&file).unwrap(), svg, "{file}");
        }
    }

    /// Random sheets of all sizes.
    #[test]
    fn random_pictures() {
        let mut drawn = 0;
        for index in 0..3000 {
            let case = second::random::case(1515, index, second::sheet::MAX_OTHERS);
            if let Ok(table) = Table::of(&case.sheet) {
                check_picture(&table, &judge(&case.sheet), &case.name);
                drawn += 1;
            }
        }
        assert!(drawn > 1500, "{drawn}");
    }
}
