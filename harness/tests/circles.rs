//! Why no order exists, in words: every circle that is told holds, by the second program's happens-before, and every kept bar
//! has the reasons that the second program finds.

use plimdrong::{
    judge, mode, why, Answer, Bar, BarInWords, BarReason, By, Circle, Circles, Rule, Step, Why, CIRCLE_LINES,
};
use plimdrong::{Event, HappensBefore, Head, Row, Table};
use second::judge::Relations;
use second::sheet::read;

/// Panics unless each step is happens-before, the one supposed, or forced by a kept bar from happens-before and the steps in
/// front of it, and the steps lead round.
fn check_circle(circle: &Circle, bars: &[Bar], before: &[Vec<bool>], supposed: Option<(u8, u8)>) {
    let n = before.len();
    let mut known: Vec<Vec<bool>> = before.to_vec();
    let add = |known: &mut Vec<Vec<bool>>, e: u8, d: u8| {
        known[usize::from(e)][usize::from(d)] = true;
        for by in 0..n {
            for e in 0..n {
                for d in 0..n {
                    known[e][d] |= known[e][by] && known[by][d];
                }
            }
        }
    };
    // what was supposed is known from the start
    supposed.iter().for_each(|&(e, d)| add(&mut known, e, d));
    for step @ Step { before: e, after: d, by } in &circle.steps {
        match by {
            By::HappensBefore => assert!(before[usize::from(*e)][usize::from(*d)], "{step:?}"),
            By::Supposed => assert_eq!(supposed, Some((*e, *d)), "{step:?}"),
            By::Bar(bar) => {
                assert!(bars.contains(bar), "{step:?}");
                let ways = [
                    ((bar.reader, bar.between), (bar.writer, bar.between)),
                    ((bar.between, bar.writer), (bar.between, bar.reader)),
                ];
                let way = ways.iter().find(|(so, _)| *so == (*e, *d));
                let (_, (first, then)) = way.unwrap_or_else(|| panic!("{step:?}"));
                assert_eq!(step.needs(), Some((*first, *then)));
                assert!(known[usize::from(*first)][usize::from(*then)], "{step:?}");
            }
        }
        add(&mut known, *e, *d);
    }
    assert!(circle.round.len() >= 2, "{circle:?}");
    let next = circle.round.iter().skip(1).chain(&circle.round[..1]);
    for (&e, &d) in circle.round.iter().zip(next) {
        assert!(circle.steps.iter().any(|step| (step.before, step.after) == (e, d)), "{circle:?}");
    }
    let lone = |i: usize| circle.round[..i].contains(&circle.round[i]);
    assert!(!(0..circle.round.len()).any(lone), "an event twice: {circle:?}");
}

#[derive(Default, Debug)]
struct Seen {
    one: usize,
    nested: usize,
    either: usize,
    choices: usize,
    steps: usize,
    bars: usize,
    reasons: [usize; 3],
    alone: [usize; 3],
}

/// All that is told of a sheet that is broken by 26.
fn check_told(sheet: &[u8], seen: &mut Seen) {
    let told = why(sheet);
    let Why::Kept { bars } = &told else { panic!("{told}") };
    let x = read(sheet).unwrap_or_else(|_| panic!("a sheet that was judged"));
    let second = Relations::of(&x);
    let n = x.events.len();
    let before: Vec<Vec<bool>> = (0..n).map(|e| (0..n).map(|d| second.before[e][d]).collect()).collect();
    let own = HappensBefore::of(sheet).unwrap();
    for (e, d) in (0..n).flat_map(|e| (0..n).map(move |d| (e, d))) {
        assert_eq!(own.is(e as u8, d as u8), before[e][d], "{e} {d}");
    }
    seen.bars = seen.bars.max(bars.len());

    let in_words = told.in_words(sheet).unwrap();
    for BarInWords { bar, reasons, sentence } in &in_words.bars {
        let rows = x.rows.iter().filter(|row| (row.reader, row.writer) == (bar.reader.into(), bar.writer.into()));
        let mut found = [false; 3];
        for row in rows {
            let of_row = second.reasons(row, bar.between.into());
            (0..3).for_each(|i| found[i] |= of_row[i]);
        }
        let own = [BarReason::A, BarReason::B, BarReason::C].map(|reason| reasons.contains(&reason));
        assert_eq!(own, found, "{bar}");
        assert!(!reasons.is_empty());
        assert!(sentence.contains(" may not stand between them, by (") && sentence.starts_with("event "), "{sentence}");
        (0..3).filter(|&i| own[i]).for_each(|i| seen.reasons[i] += 1);
        (0..3).filter(|&i| own[i] && reasons.len() == 1).for_each(|i| seen.alone[i] += 1);
    }

    let lines = in_words.circle_lines;
    assert!(!lines.is_empty() && lines.len() <= CIRCLE_LINES, "{lines:?}");
    assert!(lines.iter().all(|line| !line.contains('\n')) && lines.last().unwrap().ends_with('.'), "{lines:?}");
    match in_words.circles {
        Circles::One(circle) => {
            check_circle(&circle, bars, &before, None);
            assert!(!circle.steps.iter().any(|step| step.by == By::Supposed));
            seen.one += 1;
            seen.nested += usize::from(circle.steps.len() > circle.round.len());
            seen.steps = seen.steps.max(circle.steps.len());
        }
        Circles::Either { events: (e, d), first, second } => {
            check_circle(&first, bars, &before, Some((e, d)));
            check_circle(&second, bars, &before, Some((d, e)));
            seen.either += 1;
        }
        Circles::Choices => seen.choices += 1,
    }
    let explained = told.explain(sheet);
    assert!(lines.iter().all(|line| explained.contains(line.as_str())));
    assert!(explained.starts_with("The memory model forbids this execution: no total order "));
}

fn is_broken_by_26(sheet: &[u8]) -> bool {
    matches!(judge(sheet), Answer::Broken { rule: Rule::NoOrder })
}

#[test]
fn stored_sheets() {
    let dir = concat!(env!("CARGO_MANIFEST_DIR"), "/../examples/litmus");
    let mut seen = Seen::default();
    for file in std::fs::read_dir(dir).unwrap().map(|f| f.unwrap().path()) {
        if file.extension().is_some_and(|e| e == "sheet") {
            let sheet = std::fs::read(&file).unwrap();
            if is_broken_by_26(&sheet) {
                check_told(&sheet, &mut seen);
            } else {
                assert_eq!(why(&sheet).in_words(&sheet), None);
            }
        }
    }
    println!("{seen:?}");
    assert!(seen.one >= 3);
}

/// Each agent writes its own byte and reads the next one's, and all read 0: a circle of two steps an agent, in ten lines.
#[test]
fn round_many_agents() {
    for agents in 2..=8u8 {
        let of_agent =
            |a: u8| [Event::write(a + 1, mode::SC, a, &[1]), Event::read(a + 1, mode::SC, (a + 1) % agents, &[0])];
        let events = [vec![Event::init(0, &vec![0; agents.into()])], (0..agents).flat_map(of_agent).collect()].concat();
        let rows = (0..agents).map(|a| Row { reader: 2 * a + 2, address: (a + 1) % agents, writer: 0 }).collect();
        let head = Head { edition: 1, agents, memory: agents };
        let sheet = Table { head, events, rows, pairs: vec![] }.sheet().unwrap();
        let mut seen = Seen::default();
        check_told(&sheet, &mut seen);
        assert_eq!((seen.steps, seen.bars), (2 * usize::from(agents), agents.into()));
        let lines = why(&sheet).in_words(&sheet).unwrap().circle_lines;
        assert_eq!(lines.len(), if agents <= 5 { 2 * usize::from(agents) } else { agents.into() });
        let first = if agents <= 5 {
            "event 1 stands before event 2: it happens before it"
        } else {
            "event 1 happens before event 2; event 2 stands before event 3: it read from event 0, which happens before event 3 (bar 2 0 3)"
        };
        assert_eq!(lines[0], first);
        assert!(lines.last().unwrap().ends_with(": and so event 1 would stand before itself."));
    }
}

#[test]
fn random_sheets() {
    let (count, max) = if cfg!(debug_assertions) { (4_000, 9) } else { (30_000, second::sheet::MAX_OTHERS) };
    let mut seen = Seen::default();
    for index in 0..count {
        let case = second::random::case(88, index, max);
        if is_broken_by_26(&case.sheet) {
            check_told(&case.sheet, &mut seen);
        }
    }
    println!("{seen:?}");
    assert!(seen.one > 50);
}

/// Sheets aimed at 26: among them such that bars leave choices, so that no single circle is there.
#[test]
fn aimed_sheets() {
    let (count, max) = if cfg!(debug_assertions) { (2_000, 9) } else { (8_000, second::sheet::MAX_OTHERS) };
    let mut seen = Seen::default();
    for index in 0..count {
        let case = second::random::why_case(77, index, max);
        if is_broken_by_26(&case.sheet) {
            check_told(&case.sheet, &mut seen);
        }
    }
    println!("{seen:?}");
    assert!(seen.one > 50 && (seen.either + seen.choices > 10 || cfg!(debug_assertions)), "{seen:?}");
}

/// Numbers for the sheets below.
struct Random(u64);

impl Random {
    fn below(&mut self, n: usize) -> usize {
        self.0 = self.0.wrapping_mul(6364136223846793005).wrapping_add(1442695040888963407);
        (self.0 >> 33) as usize % n
    }
}

/// Many sc accesses of two bytes, most of them read-modify-writes and reads of what others wrote: bars that leave choices.
fn crowded(random: &mut Random) -> Option<Vec<u8>> {
    let agents = 2 + random.below(5) as u8;
    let memory = 1 + random.below(2) as u8;
    let mut events = vec![Event::init(0, &vec![0; memory.into()])];
    let others = agents as usize + random.below(9);
    for i in 0..others {
        let agent = if i < agents.into() { i as u8 + 1 } else { 1 + random.below(agents.into()) as u8 };
        let (start, value) = (random.below(memory.into()) as u8, [events.len() as u8]);
        events.push(match random.below(3) {
            0 => Event::write(agent, mode::SC, start, &value),
            1 => Event::rmw(agent, start, &[0], &value),
            _ => Event::read(agent, mode::SC, start, &[0]),
        });
    }
    let mut rows = vec![];
    for reader in 1..events.len() {
        if events[reader].kind == plimdrong::kind::WRITE {
            continue;
        }
        let address = events[reader].start;
        let writes = |e: &usize| {
            *e != reader && events[*e].kind != plimdrong::kind::READ && (*e == 0 || events[*e].start == address)
        };
        let writers: Vec<usize> = (0..events.len()).filter(writes).collect();
        let writer = writers[random.below(writers.len())];
        events[reader].data[0] = if writer == 0 { 0 } else { writer as u8 };
        rows.push(Row { reader: reader as u8, address, writer: writer as u8 });
    }
    Table { head: Head { edition: 2, agents, memory }, events, rows, pairs: vec![] }.sheet().ok()
}

#[test]
fn crowded_sheets() {
    let (mut random, mut seen) = (Random(8), Seen::default());
    let count = if cfg!(debug_assertions) { 10_000 } else { 100_000 };
    for _ in 0..count {
        if let Some(sheet) = crowded(&mut random).filter(|sheet| is_broken_by_26(sheet)) {
            check_told(&sheet, &mut seen);
        }
    }
    println!("{seen:?}");
    assert!(seen.one > 100 && seen.reasons.iter().all(|&reason| reason > 20));
}

fn chain() -> Vec<u8> {
    Table::parse("head 1 1 1\ninit at 0: 00\nA1 read sc at 0: 00\nrow 1 0 0").unwrap().sheet().unwrap()
}

/// Some events of some agents, and whatever bars: more than sheets give, so that choices are left too.
#[test]
fn whatever_bars() {
    let (mut random, mut seen, mut orders) = (Random(26), Seen::default(), 0);
    for _ in 0..if cfg!(debug_assertions) { 3_000 } else { 30_000 } {
        let others = 3 + random.below(4);
        let agents = 2 + random.below(others - 1) as u8;
        let agent = |i: usize| if i < agents.into() { i as u8 + 1 } else { (i as u8 * 7) % agents + 1 };
        let events: Vec<Event> = (0..others).map(|i| Event::read(agent(i), mode::UNORDERED, 0, &[0])).collect();
        let events = [vec![Event::init(0, &[0])], events].concat();
        let rows = (1..=others as u8).map(|reader| Row { reader, address: 0, writer: 0 }).collect();
        let sheet =
            Table { head: Head { edition: 2, agents, memory: 1 }, events, rows, pairs: vec![] }.sheet().unwrap();
        let before = HappensBefore::of(&sheet).unwrap();
        let n = usize::from(before.events());
        let bars: Vec<Bar> = (0..2 + random.below(20))
            .map(|_| {
                // not the init, which happens before all: a bar of it leaves no choice
                let first = 1 + random.below(others);
                let second = (1..n).filter(|&e| e != first).nth(random.below(others - 1)).unwrap();
                let third = (1..n).filter(|&e| e != first && e != second).nth(random.below(others - 2)).unwrap();
                Bar { reader: first as u8, writer: second as u8, between: third as u8 }
            })
            .collect();
        let circles = Circles::of(&before, &bars);
        let matrix: Vec<Vec<bool>> = (0..n).map(|e| (0..n).map(|d| before.is(e as u8, d as u8)).collect()).collect();
        if some_order(&matrix, &bars) {
            assert!(matches!(circles, None | Some(Circles::Choices)), "{bars:?} {circles:?}");
            orders += 1;
            continue;
        }
        let circles = circles.unwrap_or_else(|| panic!("{bars:?}"));
        let lines = circles.lines(&before);
        assert!(!lines.is_empty() && lines.len() <= CIRCLE_LINES && lines.last().unwrap().ends_with('.'), "{lines:?}");
        match circles {
            Circles::One(circle) => {
                check_circle(&circle, &bars, &matrix, None);
                seen.one += 1;
                seen.nested += usize::from(circle.steps.len() > circle.round.len());
                seen.steps = seen.steps.max(circle.steps.len());
            }
            Circles::Either { events: (e, d), first, second } => {
                check_circle(&first, &bars, &matrix, Some((e, d)));
                check_circle(&second, &bars, &matrix, Some((d, e)));
                assert!(lines[0].starts_with("no single circle: whichever of events "));
                seen.steps = seen.steps.max(first.steps.len() + second.steps.len());
                seen.either += 1;
            }
            Circles::Choices => seen.choices += 1,
        }
    }
    println!("{orders} with an order; {seen:?}");
    assert!(orders > 100 && seen.one > 100 && seen.nested > 20 && seen.either > 20);
    assert_eq!(Circles::Choices.lines(&HappensBefore::of(&chain()).unwrap()).len(), 1);
}

fn some_order(before: &[Vec<bool>], bars: &[Bar]) -> bool {
    let n = before.len();
    let mut order: Vec<usize> = (0..n).collect();
    loop {
        let mut place = vec![0; n];
        order.iter().enumerate().for_each(|(i, &e)| place[e] = i);
        let kept = (0..n).all(|e| (0..n).all(|d| !before[e][d] || place[e] < place[d]));
        let at = |e: u8| place[usize::from(e)];
        if kept && !bars.iter().any(|b| at(b.writer) < at(b.between) && at(b.between) < at(b.reader)) {
            return true;
        }
        if !second::judge::next_order(&mut order) {
            return false;
        }
    }
}

/// Every kind and number: what is an answer is taken apart as it was made, with or without bits from 48 up, and nothing else.
#[test]
fn words_of_why() {
    let buffer: Vec<u8> = (0..60).collect();
    let mut answers = 0;
    for (kind, number) in (0..=255u64).flat_map(|kind| (0..=255u64).map(move |number| (kind, number))) {
        for low in [0, 2, 20, 21, 0x0100_ff00, 0x01ff_ffff, 0x0102_0304, 0x0102_03ff, 0x0102_ffff, 0xffff_ffff] {
            let word = kind << 40 | number << 32 | low;
            let said = Why::from_word(word, &buffer);
            assert_eq!(said, Why::from_word(word | 0xffff << 48, &buffer));
            let line = said.as_ref().map(|why| why.to_string());
            let judged = Answer::from_word(word, &[0, 1, 255]);
            let want = match (kind, number) {
                (1, 13) | (2, 26) => None,
                (1, 16) => Some(format!("refused 16 at {low}")),
                (8, 26) if low <= 20 => {
                    let bars = (0..low).map(|i| format!("{} {} {}", 3 * i, 3 * i + 1, 3 * i + 2)).collect::<Vec<_>>();
                    Some(if low == 0 {
                        "kept 0 bars".to_string()
                    } else {
                        format!("kept {low} bars: {}", bars.join(", "))
                    })
                }
                _ => judged.as_ref().map(|answer| answer.to_string().replace(" then 0 1", "")),
            };
            assert_eq!(line, want, "{word:x}");
            answers += usize::from(said.is_some());
            let Some(said) = said else { continue };
            match (&judged, kind) {
                (Some(judged), 1 | 2) => assert_eq!(said.of_the_sheet().as_ref(), Some(judged)),
                (_, 8) => assert_eq!(said.of_the_sheet(), Some(Answer::Broken { rule: Rule::NoOrder })),
                _ => assert_eq!(said.of_the_sheet(), None),
            }
        }
    }
    assert!(answers > 150, "{answers}");
    let short = Why::Refused { number: 16, place: 0 };
    assert!(short
        .explain(&[])
        .starts_with("The buffer for the bars cannot hold the kept list. Lend three bytes for each bar;"));
    // a kept list is of its own sheet
    let bars = vec![Bar { reader: 1, writer: 0, between: 9 }];
    assert_eq!(Why::Kept { bars: bars.clone() }.in_words(&chain()), None);
    assert_eq!(Why::Kept { bars: bars.clone() }.in_words(&[]), None);
    assert_eq!(Why::Kept { bars }.explain(&[]), Answer::Broken { rule: Rule::NoOrder }.explain());
}

/// docs/SHEET.md, "Why no order exists": the words and buffers of its example, and the walk through the bars of the other.
#[test]
fn the_documents_words() {
    let page = include_str!("../../docs/SHEET.md");
    let page = page.split_once("\n## Why no order exists: plimdrong why\n").unwrap().1;
    let litmus =
        |name: &str| std::fs::read(format!("{}/../examples/litmus/{name}.sheet", env!("CARGO_MANIFEST_DIR"))).unwrap();
    let sheet = litmus("07-store-buffering");
    let mut tried = 0;
    for line in page.lines().filter(|line| line.contains(" of scratch, ")) {
        let cells: Vec<&str> = line.split('|').map(str::trim).collect();
        let lent: Vec<usize> = cells[1].split(' ').filter_map(|word| word.parse().ok()).collect();
        let (mut scratch, mut bars) = (vec![9; lent[0]], vec![9; lent[1]]);
        let word = plimdrong::why_with(&sheet, &mut scratch, &mut bars);
        assert_eq!(format!("`{word:x}`"), cells[2], "{line}");
        let kept = [2, 0, 3, 4, 0, 1];
        if cells[3].starts_with("`02 00 03 04 00 01`") {
            assert_eq!((&bars[..6], &bars[6..]), (&kept[..], &vec![9; bars.len() - 6][..]), "{line}");
        } else {
            assert_eq!(bars, vec![9; lent[1]], "{line}");
        }
        let untouched = cells[2] == "`10c00000000`";
        assert_eq!(scratch, vec![if untouched { 9 } else { 0 }; lent[0]], "{line}");
        tried += 1;
    }
    assert_eq!(tried, 5);

    let sheet = litmus("22-two-readers-disagree");
    let table = Table::of(&sheet).unwrap();
    let before = HappensBefore::of(&sheet).unwrap();
    let n = before.events();
    let triples = (0..n).flat_map(|r| (0..n).flat_map(move |w| (0..n).map(move |v| (r, w, v))));
    let all = triples.map(|(reader, writer, between)| Bar { reader, writer, between });
    let all: Vec<Bar> = all.filter(|bar| !bar.reasons(&table, &before).is_empty()).collect();
    let shown = |bars: &[Bar]| {
        let shown: Vec<String> = bars.iter().map(|b| format!("({}, {}, {})", b.reader, b.writer, b.between)).collect();
        shown.join(", ")
    };
    assert!(page.contains(&format!("All bars: {}.", shown(&all))));
    let matrix: Vec<Vec<bool>> = (0..n).map(|e| (0..n).map(|d| before.is(e, d)).collect()).collect();
    let mut kept: Vec<Bar> = vec![];
    for (i, bar) in all.iter().enumerate() {
        let remain = [&kept[..], &all[i + 1..]].concat();
        let row = format!("| {} | {} | ", shown(&[*bar]), shown(&remain));
        let said = page.split_once(&row).unwrap_or_else(|| panic!("{row}")).1.lines().next().unwrap();
        assert_eq!(said.ends_with(": kept |"), some_order(&matrix, &remain), "{row}");
        if some_order(&matrix, &remain) {
            kept.push(*bar);
            let met = said.split(" met by ").nth(1).unwrap().split(':').next().unwrap();
            let place = |e: u8| met.split(' ').position(|word| word == e.to_string()).unwrap();
            assert!((0..n).all(|e| (0..n).all(|d| !before.is(e, d) || place(e) < place(d))), "{said}");
            let met = |b: &Bar| !(place(b.writer) < place(b.between) && place(b.between) < place(b.reader));
            assert!(remain.iter().all(met), "{said}");
        } else {
            assert!(said.ends_with(" no order: dropped |"), "{row}");
        }
    }
    assert_eq!(why(&sheet), Why::Kept { bars: kept });
}
