//! The writer and the way back against the second program: random tables, whole and spoiled in every way, random and
//! damaged sheets, buffers of every kind; stored sheets there and back; tables as text. More of them, with any seed: `cargo
//! run --release --example compare -- --tables --seed S --count N`.

mod compare_tables;

use compare_tables::{slices, table_of};
use plimdrong::{judge, table_with, write_with, Answer, Buffers, Entry, Event, Head, Table};
use second::random::{case, table_case};
use second::text::to_text;

/// The count of each answer is part of the log, and each must have come.
fn told(what: &str, hits: compare_tables::Hits) {
    println!("{what}, answers and buffers as the second program says\n{hits}");
    let missing = hits.missing();
    assert!(missing.is_empty(), "never came: {}", missing.join(", "));
}

#[test]
fn random_tables() {
    let count = if cfg!(debug_assertions) { 20_000 } else { 300_000 };
    told(&format!("{count} random tables written"), compare_tables::random_tables(1, count));
}

#[test]
fn tables_of_random_sheets() {
    let count = if cfg!(debug_assertions) { 20_000 } else { 300_000 };
    told(&format!("tables of {count} random sheets"), compare_tables::tables_of_random_sheets(3, count));
}

/// The text of a table gives the table back, whatever is wrong with it.
#[test]
fn text_of_random_tables() {
    let count = if cfg!(debug_assertions) { 5_000 } else { 50_000 };
    let (mut short, mut long) = (0, 0);
    for index in 0..count {
        let c = table_case(2, index, 8);
        let Some(table) = table_of(&c.lists) else { continue };
        let text = table.to_string();
        let (back, lines) =
            Table::parse_with_lines(&text).unwrap_or_else(|wrong| panic!("{}: {wrong}\n{text}", c.name));
        assert_eq!(back, table, "{}\n{text}", c.name);
        // head, events, rows, pairs, a line each
        let all: Vec<usize> =
            [lines.head].into_iter().chain(lines.events).chain(lines.rows).chain(lines.pairs).collect();
        assert_eq!(all, (1..=text.lines().count()).collect::<Vec<_>>(), "{}", c.name);
        if text.contains(" event ") {
            long += 1
        } else {
            short += 1
        }
    }
    assert!(short > count / 3 && long > count / 50, "{short} {long}");
}

/// A sheet to its table and back, byte for byte, and to its text and back; a refused one as the judge refuses it.
fn there_and_back(name: &str, sheet: &[u8]) -> bool {
    match Table::of(sheet) {
        Err(refused) => {
            assert_eq!(refused, judge(sheet), "{name}");
            false
        }
        Ok(table) => {
            assert!(!matches!(judge(sheet), Answer::Refused { .. }), "{name}");
            assert_eq!(table.sheet().as_deref(), Ok(sheet), "{name}");
            assert_eq!(Table::parse(&table.to_string()).as_ref(), Ok(&table), "{name}");
            // a whole table needs short lines only; they are those of the tool `sheets`
            assert_eq!(table.to_string(), to_text(sheet), "{name}");
            true
        }
    }
}

#[test]
fn stored_sheets_there_and_back() {
    let mut whole = 0;
    let dir = concat!(env!("CARGO_MANIFEST_DIR"), "/../examples/litmus");
    let mut files: Vec<_> = std::fs::read_dir(dir).unwrap().map(|f| f.unwrap().path()).collect();
    files.retain(|f| f.extension().is_some_and(|e| e == "sheet"));
    assert!(files.len() >= 56);
    for file in files {
        whole += usize::from(there_and_back(&file.display().to_string(), &std::fs::read(&file).unwrap()));
    }
    assert!(whole >= 40, "{whole}");
    whole = 0;
    for line in include_str!("../../tests/reader/sheets.tsv").lines().filter(|l| !l.starts_with('#')) {
        let [name, hex, expected] = line.split('\t').collect::<Vec<_>>()[..] else { panic!("{line}") };
        let read = there_and_back(name, &second::text::from_hex(hex).unwrap());
        assert_eq!(read, expected.starts_with("read "), "{name}");
        whole += usize::from(read);
    }
    assert!(whole >= 10, "{whole}");
    for index in 0..2_000 {
        let c = case(5, index, second::sheet::MAX_OTHERS);
        there_and_back(&c.name, &c.sheet);
    }
}

/// Both editions give the same record: a stored sheet of edition 1, at edition 2 with the tear bytes that the rule gave,
/// is a byte an event longer, gets the same verdict, and comes back.
#[test]
fn stored_sheets_at_edition_2() {
    let dir = concat!(env!("CARGO_MANIFEST_DIR"), "/../examples/litmus");
    let (mut same, mut verdicts) = (0, std::collections::BTreeSet::new());
    for file in std::fs::read_dir(dir).unwrap().map(|f| f.unwrap().path()) {
        let sheet = std::fs::read(&file).unwrap();
        let Some(table) = Table::of(&sheet).ok().filter(|t| t.head.edition == 1) else { continue };
        let name = file.display();
        let second = Table { head: Head { edition: 2, ..table.head }, ..table.clone() };
        let longer = second.sheet().unwrap_or_else(|wrong| panic!("{name}: {wrong}"));
        assert_eq!(longer.len(), sheet.len() + table.events.len(), "{name}");
        assert_eq!(judge(&longer), judge(&sheet), "{name}");
        assert_eq!(Table::of(&longer), Ok(second), "{name}");
        verdicts.insert(judge(&sheet).to_string()[..9].to_string());
        same += 1;
    }
    assert!(same >= 40, "{same}");
    assert!(verdicts.contains("broken 25"), "{verdicts:?}");
}

/// What an access may do at edition 2 it may do at edition 1 only where the rule gives it.
#[test]
fn accesses_that_may_tear() {
    let torn = |tears: [u8; 3]| {
        let mut table = Table::parse(
            "head 2 3 2\n init at 0: 00 00\n A1 write unordered at 0: 01 01\n A2 write unordered at 0: 02 02\n \
             A3 read unordered at 0: 01 02\n row 3 0 1\n row 3 1 2",
        )
        .unwrap();
        for (event, tear) in table.events[1..].iter_mut().zip(tears) {
            if tear == 0 {
                *event = event.clone().may_tear();
            }
        }
        table
    };
    for bits in 0..8u8 {
        let tears = [bits & 1, bits >> 1 & 1, bits >> 2 & 1];
        let table = torn(tears);
        let sheet = table.sheet().unwrap();
        // the tear byte of event i is the byte before its two data bytes
        assert_eq!([sheet[25], sheet[36], sheet[47]], tears);
        let expected = if bits == 7 { "broken 25 3 1 2 -" } else { "consistent unsettled 1 2 then 0 1 2 3" };
        assert_eq!(judge(&sheet).to_string(), expected, "{tears:?}");
        assert_eq!(Table::of(&sheet).as_ref(), Ok(&table));
        let text = table.to_string();
        assert_eq!(text.matches("may-tear").count(), tears.iter().filter(|t| **t == 0).count(), "{text}");
        assert_eq!(Table::parse(&text).as_ref(), Ok(&table));
        assert_eq!(second::text::from_text(&text).as_ref(), Ok(&sheet), "{text}");
        // edition 1 is refused at the first event that may tear
        let first = Table { head: Head { edition: 1, ..table.head }, ..table };
        match tears.iter().position(|t| *t == 0) {
            Some(i) => {
                let wrong = first.sheet().unwrap_err();
                assert_eq!((wrong.number, wrong.entry, wrong.index), (6, Entry::Event, 1 + i));
            }
            None => assert_eq!(judge(&first.sheet().unwrap()).to_string(), expected),
        }
    }
}

/// Texts of the tool `sheets` that say what a table can say are texts of tables, of damaged sheets too.
#[test]
fn texts_of_the_second_program() {
    let mut read = 0;
    for index in 0..5_000 {
        let c = case(6, index, 8);
        let text = to_text(&c.sheet);
        if text.contains("bytes ") {
            continue;
        }
        let Ok(table) = Table::parse(&text) else { continue };
        read += 1;
        match (table.sheet(), judge(&c.sheet)) {
            // the lines of a text may be mixed, the fields of a sheet may not
            (_, Answer::Refused { number: 3, .. }) => {}
            (Ok(sheet), answer) => assert!(sheet == c.sheet && !matches!(answer, Answer::Refused { .. }), "{text}"),
            (Err(wrong), Answer::Refused { number, .. }) => assert_eq!(wrong.number, number, "{text}"),
            (Err(wrong), answer) => panic!("{wrong}, {answer}\n{text}"),
        }
    }
    assert!(read > 3_000, "{read}");
}

/// What a person gets to read.
#[test]
fn refusals_in_words() {
    let example = "head 1 1 2\ninit at 0: 00 00\nA1 read sc at 0: 00\nrow 1 0 0";
    let words = |text: &str| match Table::parse(text).unwrap().sheet() {
        Err(wrong) => wrong.to_string(),
        Ok(_) => "written".to_string(),
    };
    assert_eq!(words(example), "written");
    let begins = |text: &str, words_begin: &str| {
        let said = words(text);
        assert!(said.starts_with(words_begin), "{said}");
    };
    let events = example.split_once('\n').unwrap().1;
    begins(
        &format!("head 3 1 1\n{events}"),
        "the head (head 3 1 1): The head's content is wrong. The edition is 1 or 2,",
    );
    assert_eq!(words(&format!("head 2 1 2\n{events}")), "written");
    begins(
        &format!("head 1 2 2\n{events}"),
        "the table: An agent that the head promises has no event. Agent 2 has none. ",
    );
    begins("head 1 1 1", "the table: No event reads, so there is nothing to judge. ");
    begins(
        "head 1 1 2\nA1 read sc at 0: 00 00\nrow 0 1 1",
        "row 0 (row 0 1 1): A row's content is wrong. The reader reads and covers the address, ",
    );
    begins(
        "head 1 1 2\nA1 read sc at 0: 00 00\npair 0 0",
        "pair 0 (pair 0 0): A pair's content is wrong. Both are markers, of different agents, ",
    );
    // the tear byte: what it is, what it must be, and why
    for (edition, event, said) in [
        (
            1,
            "A1 read unordered may-tear at 0: 00 00",
            "0, and edition 1's rule gives 1: an unordered access that may tear needs edition 2",
        ),
        (1, "event 1 1 1 0 2 2: 00 00", "2, and edition 1's rule gives 1"),
        (1, "event 1 1 2 0 2 0: 00 00", "0, and edition 1's rule gives 1"),
        (1, "event 1 1 1 1 2 1: 00 00", "1, and edition 1's rule gives 0"),
        (1, "event 0 2 0 0 2 1: 00 00", "1, and edition 1's rule gives 0"),
        (1, "event 1 4 2 0 0 1:", "1, and edition 1's rule gives 0"),
        (
            2,
            "event 1 1 1 0 2 2: 00 00",
            "2, and at edition 2 that of such an unordered access is 0, may tear, or 1, tear-free",
        ),
        (
            2,
            "event 1 1 2 0 2 0: 00 00",
            "0, and at edition 2 that of an sc read, write or read-modify-write is 1: it is tear-free",
        ),
        (
            2,
            "event 1 3 2 0 1 0: 00 00",
            "0, and at edition 2 that of an sc read, write or read-modify-write is 1: it is tear-free",
        ),
        (
            2,
            "event 1 2 1 1 2 1: 00 00",
            "1, and at edition 2 that of an unordered access is 0 unless its width is 1, 2 or 4 and divides its start",
        ),
        (
            2,
            "event 1 2 1 0 8 1: 00 00 00 00 00 00 00 00",
            "1, and at edition 2 that of an unordered access is 0 unless its width is 1, 2 or 4 and divides its start",
        ),
        (2, "event 0 2 0 0 2 1: 00 00", "1, and at edition 2 an init's is 0"),
        (2, "event 1 4 2 0 0 1:", "1, and at edition 2 a marker's is 0"),
    ] {
        begins(
            &format!("head {edition} 1 8\n{event}"),
            &format!("event 0 ({event}): An event's content is wrong. Its tear byte is {said}. Check agent, kind, "),
        );
    }
    // where the tear byte is right nothing is said of it, nor where kind or mode is at fault
    for (edition, event) in [
        (1, "A9 read unordered at 0: 00 00"),
        (2, "A9 read unordered may-tear at 0: 00 00"),
        (2, "A9 read unordered at 0: 00 00"),
        (2, "event 1 9 1 0 2 7: 00 00"),
        (2, "event 1 1 3 0 2 7: 00 00"),
        (2, "A1 rmw unordered may-tear at 0: 00 -> 01"),
    ] {
        begins(
            &format!("head {edition} 1 8\n{event}"),
            &format!("event 0 ({event}): An event's content is wrong. Check agent, kind, mode, start and width: "),
        );
    }
    begins(
        "head 1 1 2\nevent 1 1 1 0 2 1: 00",
        "event 0 (event 1 1 1 0 2 1: 00): Its data has the wrong length. It has 1 data byte, and 2 are asked for. A read ",
    );
    begins(
        &format!("head 1 1 2\n{}", "A1 marker\n".repeat(19)),
        "event 18 (A1 marker): Too many events or pairs: a fifth init, a 19th other event or a 33rd pair. ",
    );
    let pairs: String = (0..8).flat_map(|a| (8..16).map(move |b| format!("pair {a} {b}\n"))).collect();
    let markers = "A1 marker\n".repeat(8) + &"A2 marker\n".repeat(8);
    begins(&format!("head 1 2 1\n{markers}{pairs}"), "pair 32 (pair 4 8): Too many events or pairs: ");
    begins(
        "head 1 1 2\nA1 read sc at 0: 00 00\nA1 write sc at 0: 00 00\nrow 0 0 1",
        "event 0 (A1 read sc at 0: 00 00): A byte that was read has no row. Byte 1 has none. Give each byte ",
    );
}

/// Data that two bytes cannot count is too long, and nothing wraps.
#[test]
fn data_of_65536_bytes_and_more() {
    for length in [4082, 4083, 65_534, 65_535, 65_536, 65_537, 65_540, 131_072, 131_073] {
        let long = Event { data: vec![0; length], ..Event::write(1, 1, 0, &[0]) };
        let table = Table { head: Head { edition: 1, agents: 1, memory: 1 }, events: vec![long], ..Table::default() };
        let wrong = table.sheet().unwrap_err();
        // a head of 6 bytes, a field of 8 and the data
        let expected = if length + 14 > 4096 { (1, Entry::Table, 0) } else { (4, Entry::Event, 0) };
        assert_eq!((wrong.number, wrong.entry, wrong.index), expected, "{length}");
        assert!(wrong.to_string().len() < 500, "{wrong}");
        // neither where other entries are at fault, and stand before
        let early = Table { events: vec![Event::marker(9), table.events[0].clone()], ..table };
        assert_eq!(early.sheet().unwrap_err().number, if length + 22 > 4096 { 1 } else { 6 }, "{length}");
    }
}

fn section<'a>(page: &'a str, title: &str) -> &'a str {
    let (_, section) = page.split_once(&format!("\n## {title}\n")).expect("the page has the section");
    section.split("\n## ").next().unwrap()
}

const PAGE: &str = include_str!("../../docs/SHEET.md");

/// docs/SHEET.md, "The text of a table": the examples are tables, and the error lines are what is said.
#[test]
fn the_documents_texts() {
    let section = section(PAGE, "The text of a table");
    let (mut tables, mut refused) = (0, 0);
    for block in section.split("```text\n").skip(1).map(|b| b.split("```").next().unwrap()) {
        let table = Table::parse(block).unwrap_or_else(|wrong| panic!("{wrong}\n{block}"));
        if let Some(said) = block.lines().last().unwrap().strip_prefix("# sheet: ") {
            assert_eq!(table.sheet().unwrap(), second::text::from_hex(said).unwrap(), "{block}");
        }
        if let Some(said) = block.lines().last().unwrap().strip_prefix("# consistent ") {
            let answer = judge(&table.sheet().unwrap());
            assert_eq!(answer.to_string(), format!("consistent {said}"), "{block}");
        }
        if let Some(said) = block.lines().last().unwrap().strip_prefix("# refused: ") {
            let wrong = table.sheet().unwrap_err().to_string();
            assert!(wrong.starts_with(said), "{block}{wrong}");
        }
        assert_eq!(Table::parse(&table.to_string()), Ok(table));
        tables += 1;
    }
    // | a line, behind `head 1 2 8` | what is said of it |
    for row in section.lines().filter(|l| l.starts_with("| `")) {
        let cells: Vec<&str> = row.trim_matches('|').split('|').map(|c| c.trim().trim_matches('`')).collect();
        let [line, said] = cells[..] else { continue };
        if said.starts_with("line ") {
            let wrong = Table::parse(&format!("head 1 2 8\n{line}")).unwrap_err().to_string();
            assert!(wrong.starts_with(said), "{line}: {wrong}");
            refused += 1;
        }
    }
    assert!(tables >= 3 && refused >= 12, "{tables} tables, {refused} error lines");
}

/// The five slices of a table as the page draws them.
fn drawn(block: &str) -> [Vec<u8>; 5] {
    let mut lists: [Vec<u8>; 5] = Default::default();
    let mut at = 0;
    for line in block.lines() {
        let (name, rest) = line.split_at(line.len().min(9));
        at = ["head", "events", "data", "rows", "pairs"].iter().position(|n| *n == name.trim()).unwrap_or(at);
        let digits = rest.split("  #").next().unwrap();
        lists[at].extend(second::text::from_hex(digits).unwrap());
    }
    lists
}

/// docs/SHEET.md, "The writer's table": what is done to the example's table, and the word that comes.
#[test]
fn the_documents_words() {
    let section = section(PAGE, "The writer's table");
    let (section, second_edition) = section.split_once("of the 32-byte example of edition 2:").unwrap();
    let mut blocks = section.split("```text\n").skip(1).map(|b| drawn(b.split("```").next().unwrap()));
    let lists = blocks.next().unwrap();
    the_documents_words_at_edition_2(second_edition, blocks.next().unwrap());
    let sheet =
        Table::parse("head 1 1 1\ninit at 0: 00\nA1 read unordered at 0: 00\nrow 1 0 0").unwrap().sheet().unwrap();
    assert_eq!(second::table::lists(&sheet).unwrap(), lists);

    let written = |change: &dyn Fn(&mut [Vec<u8>; 5]), out: usize| {
        let mut l = lists.clone();
        change(&mut l);
        write_with(slices(&l), &mut vec![0; out])
    };
    let tabled = |sheet: &[u8], lengths: [usize; 5]| {
        let mut b = lengths.map(|n| vec![0; n]);
        let [head, events, data, rows, pairs] = b.each_mut().map(|b| &mut b[..]);
        table_with(sheet, Buffers { head, events, data, rows, pairs })
    };
    let enough = lists.each_ref().map(|l| l.len());
    for (done, word) in [
        ("nothing; the buffer has 30 bytes or more", written(&|_| {}, 30)),
        ("nothing; the buffer has 29 bytes", written(&|_| {}, 29)),
        ("the head has two bytes: the memory size is then 0", written(&|l| l[0].truncate(2), 30)),
        ("the read's agent made 2", written(&|l| l[1][8] = 2, 30)),
        ("the read's tear byte made 0", written(&|l| l[1][13] = 0, 30)),
        ("the init's tear byte made 1", written(&|l| l[1][5] = 1, 30)),
        ("the data has one byte", written(&|l| l[2].truncate(1), 30)),
        ("the data has three bytes: the third is not looked at", written(&|l| l[2].push(7), 30)),
        (
            "the read's number of data bytes made 2, and the data has three",
            written(
                &|l| {
                    l[1][15] = 2;
                    l[2].push(7)
                },
                30,
            ),
        ),
        (
            "the read's number of data bytes made 4,090, and the data has as many more",
            written(
                &|l| {
                    (l[1][14], l[1][15]) = (15, 250);
                    l[2].resize(4091, 0)
                },
                30,
            ),
        ),
        ("the row is there twice", written(&|l| l[3].extend([1, 0, 0]), 30)),
        ("the row has two bytes: there is none", written(&|l| l[3].truncate(2), 30)),
        ("a pair 0 1 added: events that are no markers", written(&|l| l[4].extend([0, 1]), 30)),
        ("2 agents", written(&|l| l[0][1] = 2, 30)),
        (
            "no event, no row",
            written(
                &|l| {
                    l[1].clear();
                    l[3].clear()
                },
                30,
            ),
        ),
        ("the sheet, with buffers of 3, 16, 2, 3 and 0 bytes or more", tabled(&sheet, enough)),
        ("the sheet, with 15 bytes for the events", tabled(&sheet, [3, 15, 2, 3, 0])),
        ("the sheet, with no bytes at all", tabled(&sheet, [0; 5])),
        ("the sheet without its last byte", tabled(&sheet[..29], [0; 5])),
    ] {
        let row = format!("| {done} | `{word:x}` |");
        assert!(section.contains(&row), "the page does not have: {row}");
    }
}

fn the_documents_words_at_edition_2(page: &str, lists: [Vec<u8>; 5]) {
    let text = "head 2 1 1\ninit at 0: 00\nA1 read unordered may-tear at 0: 00\nrow 1 0 0";
    let sheet = Table::parse(text).unwrap().sheet().unwrap();
    assert_eq!(second::table::lists(&sheet).unwrap(), lists);
    // the places of the head's edition, of the init's and of the read's bytes in the slices
    let written = |changes: &[(usize, usize, u8)], out: usize| {
        let mut l = lists.clone();
        changes.iter().for_each(|&(list, at, byte)| l[list][at] = byte);
        write_with(slices(&l), &mut vec![0; out])
    };
    let edition = |byte: u8| (0, 0, byte);
    let (init_tear, read_mode, read_width, read_tear) = ((1, 5), (1, 10), (1, 12), (1, 13));
    let made = |(list, at): (usize, usize), byte: u8| (list, at, byte);
    let tabled = |sheet: &[u8], lengths: [usize; 5]| {
        let mut b = lengths.map(|n| vec![0; n]);
        let [head, events, data, rows, pairs] = b.each_mut().map(|b| &mut b[..]);
        let word = table_with(sheet, Buffers { head, events, data, rows, pairs });
        assert!(word >> 40 != 14 || b == lists);
        word
    };
    let one_data_byte = || {
        let mut l = lists.clone();
        l[2].truncate(1);
        write_with(slices(&l), &mut [0; 32])
    };
    let tried = [
        ("nothing; the buffer has 32 bytes or more", written(&[], 32)),
        ("nothing; the buffer has 31 bytes", written(&[], 31)),
        ("the read's tear byte made 1", written(&[made(read_tear, 1)], 32)),
        ("the read's tear byte made 2", written(&[made(read_tear, 2)], 32)),
        ("the init's tear byte made 1", written(&[made(init_tear, 1)], 32)),
        ("the read made sc, its tear byte still 0", written(&[made(read_mode, 2)], 32)),
        ("the read made sc, its tear byte made 1", written(&[made(read_mode, 2), made(read_tear, 1)], 32)),
        ("the read's width made 8, its tear byte made 1", written(&[made(read_width, 8), made(read_tear, 1)], 32)),
        ("the edition made 1, the read's tear byte still 0", written(&[edition(1)], 32)),
        ("the edition made 1, the read's tear byte made 1", written(&[edition(1), made(read_tear, 1)], 32)),
        ("the edition made 3", written(&[edition(3)], 32)),
        ("the data has one byte", one_data_byte()),
        ("the sheet, with buffers of 3, 16, 2, 3 and 0 bytes or more", tabled(&sheet, [3, 16, 2, 3, 0])),
        ("the sheet without its last byte", tabled(&sheet[..31], [0; 5])),
    ];
    for (done, word) in tried {
        let row = format!("| {done} | `{word:x}` |");
        assert!(page.contains(&row), "the page does not have: {row}");
    }
    // and each row of the table was tried
    assert_eq!(page.lines().filter(|l| l.starts_with("| ") && l.ends_with("` |")).count(), tried.len());
}
