//! Lists of event numbers checked against a sheet (02 §5): random sheets and lists against the second program, and all
//! orders of small sheets. More of them, with any seed: `cargo run --release --example compare -- --lists --seed S --count N`.

mod compare_lists;

use plimdrong::{check, check_with, judge, Answer, Checked, Table};
use second::judge::next_order;

#[test]
fn random_lists() {
    let count = if cfg!(debug_assertions) { 20_000 } else { 300_000 };
    let tally = compare_lists::random_lists(1, count, 0).unwrap_or_else(|wrong| panic!("{wrong}"));
    println!("{count} random sheets and lists, words and lines as the second program says\n{tally}");
    let missing = tally.missing();
    assert!(missing.is_empty(), "never came: {}", missing.join(", "));
}

fn litmus(name: &str) -> Vec<u8> {
    std::fs::read(format!("{}/../examples/litmus/{name}.sheet", env!("CARGO_MANIFEST_DIR"))).unwrap()
}

/// Every order of the events of a stored sheet with up to 7: the first that is accepted is the judge's, and one is accepted
/// exactly where the judge finds one.
#[test]
fn all_orders_of_stored_sheets() {
    let dir = concat!(env!("CARGO_MANIFEST_DIR"), "/../examples/litmus");
    let (mut with, mut without) = (0, 0);
    for file in std::fs::read_dir(dir).unwrap().map(|f| f.unwrap().path()) {
        if file.extension().is_none_or(|e| e != "sheet") {
            continue;
        }
        let (sheet, name) = (std::fs::read(&file).unwrap(), file.display());
        let judged = judge(&sheet);
        let Some(events) = Table::of(&sheet).ok().map(|t| t.events.len()).filter(|&n| n <= 7) else { continue };
        let mut order: Vec<usize> = (0..events).collect();
        let mut accepted = None;
        loop {
            let list: Vec<u8> = order.iter().map(|&e| e as u8).collect();
            let checked = check(&sheet, &list);
            assert_eq!(checked.to_string(), second::check(&sheet, &list).line(), "{name} {list:?}");
            if checked.is_accepted() {
                accepted.get_or_insert(list);
            }
            if !next_order(&mut order) {
                break;
            }
        }
        match judged {
            Answer::Consistent { order, .. } => {
                assert_eq!(accepted.as_deref(), Some(&order[..]), "{name}");
                with += 1;
            }
            _ => {
                assert_eq!(accepted, None, "{name}");
                without += 1;
            }
        }
    }
    println!("all orders of {with} sheets that have one and of {without} that have none");
    assert!(with >= 15 && without >= 10, "{with} {without}");
}

/// The tests go one after another over the whole list; what stands in front in the list does not.
#[test]
fn the_first_fault() {
    // event 0 an init; A1 x = 1 unordered, y = 1 sc; A2 y reads 1 sc, x reads 1 unordered
    let sheet = litmus("05-message-passing");
    let says = |list: &[u8]| check(&sheet, list).to_string();
    assert_eq!(says(&[0, 1, 2, 3, 4]), "accepted");
    assert_eq!(says(&[]), "not accepted 1 length 0");
    assert_eq!(says(&[0, 1, 2, 3]), "not accepted 1 length 4");
    // out of range, early: the length comes first
    assert_eq!(says(&[9, 4, 0, 255, 1, 1]), "not accepted 1 length 6");
    // a repeated number at the end comes before an early event at the front; the second of the two is named
    assert_eq!(says(&[4, 3, 2, 1, 4]), "not accepted 2 at 4");
    assert_eq!(says(&[0, 0, 0, 5, 1]), "not accepted 2 at 1");
    assert_eq!(says(&[0, 5, 0, 1, 1]), "not accepted 2 at 1");
    assert_eq!(says(&[0, 1, 2, 3, 5]), "not accepted 2 at 4");
    assert_eq!(says(&[255, 1, 2, 3, 4]), "not accepted 2 at 0");
    // the event that is too early is named, not the one that happens before it
    assert_eq!(says(&[0, 2, 1, 3, 4]), "not accepted 3 at 1");
    assert_eq!(says(&[1, 2, 3, 4, 0]), "not accepted 3 at 0");
    assert_eq!(says(&[0, 1, 3, 2, 4]), "not accepted 3 at 2");

    // three sc writes of byte 0 and a read of what the first wrote, then an early event and a bar at once
    let text = "head 2 4 1\ninit at 0: 00\nA1 write sc at 0: 01\nA2 write sc at 0: 02\nA3 write sc at 0: 03\n\
                A4 read sc at 0: 01\nA4 read sc at 0: 01\nrow 4 0 1\nrow 5 0 1";
    let sheet = Table::parse(text).unwrap().sheet().unwrap();
    let says = |list: &[u8]| check(&sheet, list).to_string();
    assert_eq!(says(&[0, 2, 3, 1, 4, 5]), "accepted");
    assert_eq!(says(&[0, 2, 1, 4, 5, 3]), "accepted");
    // of the first row the lowest V, wherever it stands
    assert_eq!(says(&[0, 1, 3, 2, 4, 5]), "not accepted 4 4 1 2 0");
    assert_eq!(says(&[0, 1, 3, 4, 2, 5]), "not accepted 4 4 1 3 0");
    assert_eq!(says(&[0, 1, 4, 2, 5, 3]), "not accepted 4 5 1 2 0");
    assert_eq!(says(&[0, 1, 2, 5, 4, 3]), "not accepted 3 at 3");
}

/// A sheet that is refused or broken by 21 to 25 is answered so, whatever the list; one that is broken by 26 is not.
#[test]
fn the_sheet_comes_first() {
    for (name, line) in [
        ("02-row-removed", "refused 11 at 15"),
        ("03-another-byte", "broken 21 1 0 - 0"),
        ("10-load-buffering", "broken 22 1 - - -"),
        ("11-from-the-future", "broken 23 1 2 - 0"),
        ("04-message-passing-stale", "broken 24 4 0 1 0"),
        ("12-torn", "broken 25 3 1 2 -"),
    ] {
        let sheet = litmus(name);
        for list in [&[][..], &[0], &[0, 1, 2, 3, 4], &[9; 300]] {
            let checked = check(&sheet, list);
            assert_eq!(checked.to_string(), line, "{name}");
            assert_eq!(checked.explain_list(&sheet, list), judge(&sheet).explain(), "{name}");
        }
    }
    let sheet = litmus("07-store-buffering");
    assert_eq!(judge(&sheet).to_string(), "broken 26 - - - -");
    assert_eq!(check(&sheet, &[0, 1]).to_string(), "not accepted 1 length 2");
    assert_eq!(check(&sheet, &[0, 1, 2, 3, 4]).to_string(), "not accepted 4 4 0 1 0");
    // bytes of any kind, with lists of any kind
    assert_eq!(check(&[], &[]).to_string(), "refused 3 at 0");
    assert_eq!(check(&[7; 4097], &[0; 9]).to_string(), "refused 1 at 0");
}

/// 12 and 13 never come: of 18 events no scratch is asked for.
#[test]
fn eighteen_events() {
    let sheet = litmus("16a-eighteen-others");
    let Answer::Consistent { order, .. } = judge(&sheet) else { panic!() };
    assert_eq!(check(&sheet, &order), Checked::Accepted);
    assert_eq!(check(&sheet, &order[1..]).to_string(), format!("not accepted 1 length {}", order.len() - 1));
}

extern "C" {
    fn mmap(address: *mut u8, length: usize, protection: i32, flags: i32, file: i32, offset: i64) -> *mut u8;
    fn munmap(address: *mut u8, length: usize) -> i32;
}

/// Lists of about 2^32 bytes: the length is said up to 2^32 - 1, and one of 2^32 + 2 is not taken for one of 2. Of memory that
/// is never touched, so that it takes none.
#[test]
fn lists_of_four_gigabytes() {
    let sheet = std::fs::read(concat!(env!("CARGO_MANIFEST_DIR"), "/../examples/first.sheet")).unwrap();
    let most = (1usize << 32) + 2;
    // readable, private, anonymous, no memory set aside
    let (readable, flags) = (1, 0x2 | 0x20 | 0x4000);
    // SAFETY: a mapping of its own, all zero bytes, readable until it is unmapped, which is after its last use.
    let list = unsafe { mmap(std::ptr::null_mut(), most, readable, flags, -1, 0) };
    assert_ne!(list as isize, -1, "no room for {most} bytes of addresses: raise `ulimit -v`");
    let zeros = unsafe { std::slice::from_raw_parts(list, most) };
    for (length, said) in
        [(2, None), (most, Some(u32::MAX)), (1 << 32, Some(u32::MAX)), ((1 << 32) - 1, Some(u32::MAX))]
    {
        let word = check_with(&sheet, &zeros[..length]);
        // of the two zeros the second is repeated
        let expected = said.map_or((2 << 32) + 1, |length| (1 << 32) + length as u64);
        assert_eq!(word, (7 << 40) + expected, "{length}");
        assert_eq!(second::check(&sheet, &zeros[..length]).word(), word, "{length}");
    }
    let word = check_with(&sheet, &zeros[..(1 << 32) - 2]);
    assert_eq!(word, (7 << 40) + (1 << 32) + u32::MAX as u64 - 1);
    assert_eq!(unsafe { munmap(list, most) }, 0);
}
