//! Every answer read from its word, its line and its sentences; and the litmus files.

mod words;

use plimdrong::{judge, refusal, Answer, Checked, Judge, ListFault, Rule};
use std::path::PathBuf;

fn from(word: u64) -> Option<Answer> {
    Answer::from_word(word, &[0, 1, 255])
}

#[test]
fn every_refusal() {
    for number in 1..=14u8 {
        let word = (1 << 40) + ((number as u64) << 32) + 77;
        let answer = from(word).unwrap();
        assert_eq!(answer, Answer::Refused { number, place: 77 });
        assert_eq!(answer.to_string(), format!("refused {number} at 77"));
        let words = refusal(number).unwrap();
        assert!(answer.explain().starts_with(words.meaning));
        assert!(answer.explain().contains(words.remedy));
    }
    // 15 is the writer's, and no answer of the judge
    for number in [0, 15, 255] {
        assert_eq!(refusal(number).is_some(), number == 15);
        assert_eq!(from((1 << 40) + ((number as u64) << 32)), None);
    }
    // 16 is of why no order exists, and no answer of the judge
    assert!(refusal(16).is_some());
    assert_eq!(from((1 << 40) + (16 << 32)), None);
}

/// The limits that sentences and documents name are the crate's.
#[test]
fn limits_in_words() {
    use plimdrong::{MAX_EVENTS, MAX_OTHERS, MAX_PAIRS, MAX_SCRATCH, MAX_SHEET};
    use plimdrong::{MAX_TABLE_DATA, MAX_TABLE_EVENTS, MAX_TABLE_HEAD, MAX_TABLE_PAIRS, MAX_TABLE_ROWS};
    let comma = |n: usize| format!("{},{:03}", n / 1000, n % 1000);
    let (sheet, scratch) = (comma(MAX_SHEET), comma(MAX_SCRATCH));
    let (event, pair) = (format!("{}th other event", MAX_OTHERS + 1), format!("{}rd pair", MAX_PAIRS + 1));
    let table = [MAX_TABLE_HEAD, MAX_TABLE_EVENTS, MAX_TABLE_DATA, MAX_TABLE_ROWS, MAX_TABLE_PAIRS];
    let [head, events, data, rows, pairs] = table;
    for (number, what) in [
        (1, format!("over {sheet} bytes")),
        (9, format!("a fifth init, a {event} or a {pair}.")),
        (12, format!("; {scratch} are enough for every sheet.")),
        (13, format!("; {MAX_EVENTS} are enough for every sheet.")),
        (15, format!("Lend {sheet} bytes for a sheet; for a table {head} (head), {events} (events), {data} (data), {rows} (rows) and {pairs} (pairs) are enough.")),
    ] {
        let words = refusal(number).unwrap();
        let said = format!("{} {}", words.meaning, words.remedy);
        assert!(said.contains(&what), "{number}: {said}\n{what}");
    }
    let root = PathBuf::from(env!("CARGO_MANIFEST_DIR")).join("..");
    let documents = ["README.md", "docs/SHEET.md", "include/plimdrong.h"]
        .map(|name| (name, std::fs::read_to_string(root.join(name)).unwrap()));
    for (name, what) in [
        ("README.md", format!("| 9 | a fifth init, a {event}, a {pair} |")),
        ("README.md", format!("; {scratch} always do |")),
        ("README.md", format!("; {MAX_EVENTS} always do |")),
        ("docs/SHEET.md", format!("| 9 | a fifth init, a {event}, a {pair} |")),
        ("docs/SHEET.md", format!("There are at most 4 inits, {MAX_OTHERS} other events, {MAX_PAIRS} pairs")),
        ("docs/SHEET.md", format!("; {scratch} always do |")),
        ("docs/SHEET.md", format!("; {MAX_EVENTS} always do |")),
        ("docs/SHEET.md", format!("{head} bytes for the head, {events} for the events, {data} for the data, {rows} for the rows and {pairs} for the pairs")),
        ("include/plimdrong.h", format!("fifth init, {event}, {pair}")),
    ] {
        let (_, text) = documents.iter().find(|(document, _)| *document == name).unwrap();
        assert!(text.contains(&what), "{name} does not say: {what}");
    }
}

#[test]
fn every_rule() {
    for (number, names, line, rule) in [
        (21, 0x0100_ff00, "broken 21 1 0 - 0", Rule::ByteDiffers { reader: 1, writer: 0, address: 0 }),
        (22, 0x01ff_ffff, "broken 22 1 - - -", Rule::BeforeItself { event: 1 }),
        (23, 0x0102_ff00, "broken 23 1 2 - 0", Rule::ReadsLater { reader: 1, writer: 2, address: 0 }),
        (24, 0x0400_0107, "broken 24 4 0 1 7", Rule::Overwritten { reader: 4, writer: 0, between: 1, address: 7 }),
        (25, 0x0301_02ff, "broken 25 3 1 2 -", Rule::Torn { reader: 3, writer: 1, other: 2 }),
        (26, 0xffff_ffff, "broken 26 - - - -", Rule::NoOrder),
    ] {
        let word = (2 << 40) + (number << 32) + names;
        let answer = from(word).unwrap();
        assert_eq!(answer, Answer::Broken { rule });
        assert_eq!(answer.to_string(), line);
        assert_eq!(rule.number() as u64, number);
        // the sentence names the rule and each event
        let sentence = answer.explain();
        assert!(sentence.contains(&format!("(rule {number})")), "{sentence}");
        for name in rule.names().into_iter().flatten() {
            assert!(sentence.contains(&name.to_string()), "{sentence}");
        }
        assert!(!answer.is_consistent());
    }
    // names that a rule does not have, and rules that are not there
    for word in [0x215_ffff_ffff, 0x216_0102_ffff, 0x219_0301_0200, 0x21a_00ff_ffff, 0x21b_ffff_ffff, 0x200_ffff_ffff] {
        assert_eq!(from(word), None, "{word:#x}");
    }
}

#[test]
fn consistent() {
    let orderly = from(0x300_ffff_ffff).unwrap();
    assert_eq!(orderly.to_string(), "consistent orderly then 0 1");
    assert!(orderly.is_consistent() && orderly.explain().contains("orderly"));
    let unsettled = from(0x301_0104_ffff).unwrap();
    assert_eq!(unsettled.to_string(), "consistent unsettled 1 4 then 0 1");
    assert!(unsettled.explain().contains("events 1 and 4 are an unsettled pair"));
    let Answer::Consistent { order, pair } = unsettled else { panic!() };
    assert_eq!((&order[..], pair), (&[0, 1][..], Some((1, 4))));
    // the longest order fills the buffer; a longer one is none
    let full: Vec<u8> = (0..22).collect();
    assert!(Answer::from_word(0x300_ffff_ffff, &full).unwrap().to_string().ends_with(" 20 21"));
    assert_eq!(Answer::from_word(0x300_ffff_ffff, &[0; 23]), None);
    // the longest line that a word and a buffer can say, though no sheet has such events
    let longest = Answer::from_word(0x301_fefe_ffff, &[254; 22]).unwrap().to_string();
    assert_eq!(longest, format!("consistent unsettled 254 254 then{}", " 254".repeat(22)));
    for word in
        [0, 0x300_0102_ffff, 0x301_0102_ff00, 0x301_01ff_ffff, 0x301_ffff_ffff, 0x302_ffff_ffff, 0x400_0000_0000]
    {
        assert_eq!(from(word), None, "{word:#x}");
    }
}

/// A word is read as without its bits from 48 up, and what is read is what it says: of all kinds, 1, 2 and 3 alone.
#[test]
fn bits_from_48_up() {
    let mut read = [0; 256];
    for word in words::words() {
        let answer = from(word);
        assert_eq!(answer, from(word % 2u64.pow(48)), "{word:#x}");
        if let Some(answer) = answer {
            let parts = words::parts(word);
            assert_eq!(words::parts_of(&answer), parts, "{word:#x}");
            read[parts.0 as usize] += 1;
        }
    }
    for (kind, count) in read.into_iter().enumerate() {
        assert_eq!(count > 0, (1..=3).contains(&kind), "kind {kind}: {count} words read");
    }
}

/// Every answer of the checker, its line and its sentences; and words that are none of its answers.
#[test]
fn checked() {
    let fault = |fault| Checked::NotAccepted { fault };
    let barred = ListFault::Barred { reader: 4, writer: 0, between: 1, address: 7 };
    for (word, line, answer) in [
        (0x10e_0000_001e, "refused 14 at 30", Checked::Refused { number: 14, place: 30 }),
        (0x219_0301_02ff, "broken 25 3 1 2 -", Checked::Broken { rule: Rule::Torn { reader: 3, writer: 1, other: 2 } }),
        (0x600_0000_0000, "accepted", Checked::Accepted),
        (0x701_0000_0003, "not accepted 1 length 3", fault(ListFault::WrongLength { length: 3 })),
        (0x701_ffff_ffff, "not accepted 1 length 4294967295", fault(ListFault::WrongLength { length: u32::MAX })),
        (0x702_0000_0004, "not accepted 2 at 4", fault(ListFault::BadNumber { index: 4 })),
        (0x703_0000_0000, "not accepted 3 at 0", fault(ListFault::TooEarly { index: 0 })),
        (0x704_0400_0107, "not accepted 4 4 0 1 7", fault(barred)),
    ] {
        assert_eq!(Checked::from_word(word), Some(answer), "{word:#x}");
        assert_eq!(answer.to_string(), line);
        assert_eq!(answer.is_accepted(), line == "accepted");
        let sentence = answer.explain();
        assert!(sentence.ends_with('.'), "{sentence}");
        match answer {
            Checked::NotAccepted { fault } => assert_eq!(sentence, format!("{fault} {}", fault.remedy())),
            Checked::Accepted => assert_eq!(answer.of_the_sheet(), None),
            // refused and broken: as the judge says it
            _ => assert_eq!((answer.of_the_sheet(), sentence), (from(word), from(word).unwrap().explain())),
        }
    }
    assert!(fault(barred)
        .explain()
        .starts_with("Event 1, an sc write, stands between event 0 and event 4, which read byte 7 from event 0."));
    // 12, 13, 15 and 26; consistent; accepted with a number or a rest; faults that there are not, a name that is none
    for word in [
        0x100_0000_0000,
        0x10c_0000_0000,
        0x10d_0000_0000,
        0x10f_0000_0000,
        0x21a_ffff_ffff,
        0x216_0102_ffff,
        0x300_ffff_ffff,
        0x500_0000_001e,
        0x601_0000_0000,
        0x600_0000_0001,
        0x700_0000_0000,
        0x705_0000_0000,
        0x704_ff00_0107,
        0x704_04ff_0107,
        0x704_0400_ff07,
        0x704_0400_01ff,
        0xe02_0000_0000,
    ] {
        assert_eq!(Checked::from_word(word), None, "{word:#x}");
    }
    // of all kinds 1, 2, 6 and 7 alone are read, as what they say, without the bits from 48 up
    let mut read = [0; 256];
    for word in words::words() {
        let answer = Checked::from_word(word);
        assert_eq!(answer, Checked::from_word(word % 2u64.pow(48)), "{word:#x}");
        if let Some(answer) = answer {
            let parts = words::parts(word);
            assert_eq!(words::parts_of_checked(&answer), parts, "{word:#x}");
            read[parts.0 as usize] += 1;
        }
    }
    for (kind, count) in read.into_iter().enumerate() {
        assert_eq!(count > 0, [1, 2, 6, 7].contains(&kind), "kind {kind}: {count} words read");
    }
}

const PAGE: &str = include_str!("../../docs/SHEET.md");

/// The two examples of docs/SHEET.md, "The format", as they are drawn: each line that begins with a place has bytes.
fn drawn_examples() -> [Vec<u8>; 2] {
    let drawn = PAGE.split("```text\n").filter(|b| b.starts_with("place  0 ")).map(|block| {
        let mut sheet = vec![];
        for line in block.split("```").next().unwrap().lines() {
            let mut words = line.split_whitespace();
            if words.next() == Some("place") {
                assert_eq!(words.next().unwrap(), sheet.len().to_string(), "{line}");
                sheet.extend(words.map_while(|w| u8::from_str_radix(w, 16).ok().filter(|_| w.len() == 2)));
            }
        }
        sheet
    });
    drawn.collect::<Vec<_>>().try_into().unwrap()
}

/// docs/SHEET.md: the drawn bytes are those of the examples; what is done to them under "Refusals" gets the answer said.
#[test]
fn the_documents_refusals() {
    let [one, two] = drawn_examples();
    assert_eq!(one, std::fs::read(concat!(env!("CARGO_MANIFEST_DIR"), "/../examples/first.sheet")).unwrap());
    let text = "head 2 1 1\ninit at 0: 00\nA1 read unordered may-tear at 0: 00\nrow 1 0 0";
    assert_eq!(two, second::text::from_text(text).unwrap());
    assert_eq!((one.len(), two.len()), (30, 32));

    // bytes from, up to, and what comes in their place
    let with = |sheet: &[u8], from: usize, to: usize, bytes: &[u8]| [&sheet[..from], bytes, &sheet[to..]].concat();
    let said = |sheet: &[u8]| judge(sheet).to_string();
    let lent = |sheet: &[u8], scratch: usize, order: usize| {
        let word = plimdrong::judge_with(sheet, &mut vec![0; scratch], &mut vec![255; order]);
        Answer::from_word(word, &[]).unwrap().to_string()
    };
    let (page, second_edition) = PAGE.split_once("And from its form at edition 2, of 32 bytes:").unwrap();
    let tried = [
        (page, "4,097 bytes of anything instead", said(&[7; 4097])),
        (page, "its last byte removed", said(&one[..29])),
        (page, "its first byte made 05", said(&with(&one, 0, 1, &[5]))),
        (page, "its head made `01 00 02 01 01`", said(&with(&one, 0, 6, &[1, 0, 2, 1, 1]))),
        (page, "9 agents: its head made `01 00 03 01 09 01`", said(&with(&one, 4, 5, &[9]))),
        (page, "the read's agent made 2", said(&with(&one, 18, 19, &[2]))),
        (page, "the row's writer made 1, the reader itself", said(&with(&one, 29, 30, &[1]))),
        (
            page,
            "`04 00 02 00 01` added: a pair of events that are no markers",
            said(&with(&one, 30, 30, &[4, 0, 2, 0, 1])),
        ),
        (page, "the first six bytes alone", said(&one[..6])),
        (page, "2 agents: its head made `01 00 03 01 02 01`", said(&with(&one, 4, 5, &[2]))),
        (page, "the row removed", said(&one[..24])),
        (page, "judged with no scratch", lent(&one, 0, 2)),
        (page, "judged with an order buffer of one byte", lent(&one, 1, 1)),
        (page, "its edition made 2: the events lack a byte", said(&with(&one, 3, 4, &[2]))),
        (second_edition, "its edition made 3, which is none", said(&with(&two, 3, 4, &[3]))),
        (second_edition, "its edition made 1: the events have a byte too many", said(&with(&two, 3, 4, &[1]))),
        (
            second_edition,
            "the read cut to `02 00 05 01 01 01 00 01`, five bytes of value",
            said(&with(&two, 16, 26, &[2, 0, 5, 1, 1, 1, 0, 1])),
        ),
        (
            second_edition,
            "the read cut to `02 00 06 01 01 01 00 01 00`, no data",
            said(&with(&two, 16, 26, &[2, 0, 6, 1, 1, 1, 0, 1, 0])),
        ),
        (second_edition, "the read's tear byte made 1", said(&with(&two, 24, 25, &[1]))),
        (second_edition, "the read's tear byte made 2", said(&with(&two, 24, 25, &[2]))),
        (second_edition, "the read made sc, its tear byte still 0", said(&with(&two, 21, 22, &[2]))),
        (second_edition, "the read made sc, its tear byte made 1", said(&with(&two, 21, 25, &[2, 0, 1, 1]))),
        (
            second_edition,
            "the read made sc and cut to `02 00 06 01 01 02 00 01 00`: the tear byte comes before the length",
            said(&with(&two, 16, 26, &[2, 0, 6, 1, 1, 2, 0, 1, 0])),
        ),
        (second_edition, "the init's tear byte made 1", said(&with(&two, 14, 15, &[1]))),
    ];
    for (page, done, answer) in &tried {
        let row = format!("| {done} | `{answer}` |");
        assert!(page.contains(&row), "the page does not have: {row}");
    }
    // and each row of the two tables was tried
    let tables = PAGE.split("| What is done to it | Answer |\n|---|---|\n").skip(1);
    assert_eq!(tables.map(|t| t.lines().take_while(|l| l.starts_with('|')).count()).sum::<usize>(), tried.len());
}

fn litmus() -> Vec<PathBuf> {
    let dir = concat!(env!("CARGO_MANIFEST_DIR"), "/../examples/litmus");
    let files = std::fs::read_dir(dir).unwrap().map(|f| f.unwrap().path());
    let mut sheets: Vec<PathBuf> = files.filter(|f| f.extension().is_some_and(|e| e == "sheet")).collect();
    sheets.sort();
    sheets
}

#[test]
fn litmus_files() {
    let sheets = litmus();
    assert!(sheets.len() >= 56);
    let mut kept = Judge::new();
    for file in sheets {
        let sheet = std::fs::read(&file).unwrap();
        let line = std::fs::read_to_string(file.with_extension("line")).unwrap();
        let answer = judge(&sheet);
        assert_eq!(format!("{answer}\n"), line, "{}", file.display());
        assert!(!answer.explain().is_empty());
        assert_eq!(kept.judge(&sheet), answer, "{}", file.display());
    }
}

/// The reader's table: refused as it says, or not refused.
#[test]
fn readers_table() {
    let mut judge = Judge::new();
    for line in include_str!("../../tests/reader/sheets.tsv").lines().filter(|l| !l.starts_with('#')) {
        let [name, hex, expected] = line.split('\t').collect::<Vec<_>>()[..] else { panic!("{line}") };
        let sheet = second::text::from_hex(hex).unwrap();
        match judge.judge(&sheet) {
            refused @ Answer::Refused { .. } => assert_eq!(refused.to_string(), expected, "{name}"),
            _ => assert!(expected.starts_with("read "), "{name}"),
        }
    }
}
