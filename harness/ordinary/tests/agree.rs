//! The ordinary judge against the second program, over sheets of both editions: answer and both buffers. And the ordinary
//! check of a list.

use second::random::{case, list_case, shown, shown_list, shown_most, SHOWN, SHOWN_LISTS, SHOWN_MOST};
use second::sheet::MAX_OTHERS;

#[test]
fn random_sheets() {
    let mut seen = std::collections::BTreeSet::new();
    for index in 0..60_000 {
        let c = case(21, index, [4, 6, 9, MAX_OTHERS][index as usize % 4]);
        let (mut scratch2, mut order2) = (vec![0xa5; c.scratch], vec![0xa5; c.order]);
        let expected = second::judge_into(&c.sheet, &mut scratch2, &mut order2);
        let (mut scratch, mut order) = (vec![0xa5; c.scratch], vec![0xa5; c.order]);
        let found = ordinary::judge(&c.sheet, &mut scratch, &mut order);
        let told = || format!("{}\n{}{}", c.name, second::text::to_text(&c.sheet), expected.line());
        assert_eq!(found, expected.word(), "{:x} {}", found, told());
        assert_eq!(order, order2, "{}", told());
        assert_eq!(scratch, scratch2, "{}", told());
        seen.extend(shown(&c.sheet, &expected));
        seen.extend(shown_most(&c, &expected));
    }
    let missing: Vec<&&str> = SHOWN.iter().chain(SHOWN_MOST).filter(|what| !seen.contains(**what)).collect();
    assert!(missing.is_empty(), "never came: {missing:?}");
}

#[test]
fn random_lists() {
    let mut seen = std::collections::BTreeSet::new();
    for index in 0..60_000 {
        let c = list_case(21, index, [4, 6, 9, MAX_OTHERS][index as usize % 4]);
        let expected = second::check(&c.sheet, &c.list);
        let found = ordinary::check(&c.sheet, &c.list);
        let told = || format!("{}\n{}{:?}\n{}", c.name, second::text::to_text(&c.sheet), c.list, expected.line());
        assert_eq!(found, expected.word(), "{:x} {}", found, told());
        seen.extend(shown_list(&c.sheet, &c.list, &expected));
    }
    let missing: Vec<&&str> = SHOWN_LISTS.iter().filter(|what| !seen.contains(**what)).collect();
    assert!(missing.is_empty(), "never came: {missing:?}");
}
