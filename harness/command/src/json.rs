//! An answer as one line of JSON.

use crate::check::Outcome;
use crate::sentence::{besides, named};
use plimdrong::{judge, Answer, Bar, BarInWords, By, Circle, Circles, KeptInWords, ListFault, Rule, Step, Table, Why};

/// A JSON string. What is no UTF-8 stands in it as U+FFFD.
pub fn string(bytes: &[u8]) -> String {
    let mut text = String::from("\"");
    for c in String::from_utf8_lossy(bytes).chars() {
        match c {
            '"' => text += "\\\"",
            '\\' => text += "\\\\",
            c if c.is_control() || matches!(c, '\u{2028}' | '\u{2029}') => text += &format!("\\u{:04x}", c as u32),
            c => text.push(c),
        }
    }
    text + "\""
}

fn numbers(list: &[u8]) -> String {
    format!("[{}]", list.iter().map(|e| e.to_string()).collect::<Vec<_>>().join(","))
}

/// Events by number, with their text.
struct Events(Option<Table>);

impl Events {
    fn of(sheet: &[u8]) -> Events {
        Events(Table::of(sheet).ok())
    }

    fn event(&self, e: u8) -> String {
        let text =
            self.0.as_ref().and_then(|t| t.events.get(usize::from(e))).map(|e| e.to_string()).unwrap_or_default();
        format!("{{\"event\":{e},\"is\":{}}}", string(text.as_bytes()))
    }

    /// An object of events by the parts that they have, and the address where there is one.
    fn names(&self, named: Vec<(&str, u8)>, address: Option<u8>) -> String {
        let events = named.into_iter().map(|(role, e)| format!("\"{}\":{}", role.replace(' ', "_"), self.event(e)));
        let all: Vec<String> = events.chain(address.map(|address| format!("\"address\":{address}"))).collect();
        format!("\"names\":{{{}}}", all.join(","))
    }
}

/// The object of an answer, without a newline: what it is called (`"name":..` or `"index":..`), the report line and its parts,
/// the sentences.
pub fn line(called: &str, sheet: &[u8], answer: &Answer) -> String {
    let told = string(format!("{}{}", answer.explain(), besides(sheet, answer)).as_bytes());
    format!("{{{called},\"line\":\"{answer}\",{},\"sentence\":{told}}}", parts(&Events::of(sheet), answer))
}

fn parts(events: &Events, answer: &Answer) -> String {
    match answer {
        Answer::Refused { number, place } => format!("\"answer\":\"refused\",\"number\":{number},\"place\":{place}"),
        Answer::Broken { rule } => {
            let address = match *rule {
                Rule::ByteDiffers { address, .. }
                | Rule::ReadsLater { address, .. }
                | Rule::Overwritten { address, .. } => Some(address),
                _ => None,
            };
            let names = events.names(named(answer), address);
            format!("\"answer\":\"broken\",\"number\":{},{names}", rule.number())
        }
        Answer::Consistent { order, pair: None } => {
            format!("\"answer\":\"consistent\",\"number\":0,\"orderly\":true,\"order\":{}", numbers(order))
        }
        Answer::Consistent { order, pair: Some((first, second)) } => format!(
            "\"answer\":\"consistent\",\"number\":1,\"orderly\":false,\"unsettled\":[{},{}],\"order\":{}",
            events.event(*first),
            events.event(*second),
            numbers(order)
        ),
    }
}

/// The same of what was said of a list.
pub fn of_list(called: &str, outcome: &Outcome) -> String {
    let events = Events::of(outcome.sheet);
    let parts = match (outcome.checked.of_the_sheet(), outcome.fault()) {
        (Some(answer), _) => parts(&events, &answer),
        (_, None) => "\"answer\":\"accepted\",\"number\":0".to_string(),
        (_, Some(fault)) => {
            let more = match fault {
                ListFault::WrongLength { length } => format!("\"length\":{length}"),
                ListFault::BadNumber { index } => {
                    format!("\"index\":{index},\"listed\":{}", outcome.list.typed(index as usize))
                }
                ListFault::TooEarly { index } => format!("\"index\":{index},{}", events.names(outcome.named(), None)),
                ListFault::Barred { address, .. } => events.names(outcome.named(), Some(address)),
            };
            format!("\"answer\":\"not accepted\",\"number\":{},{more}", fault.number())
        }
    };
    let told = string(outcome.sentence().as_bytes());
    format!("{{{called},\"line\":\"{}\",{parts},\"sentence\":{told}}}", outcome.checked)
}

/// The same of why no order exists. Where it is not 26, the parts are those of the judge's answer.
pub fn of_why(called: &str, sheet: &[u8], why: &Why) -> String {
    let events = Events::of(sheet);
    let parts = match why.in_words(sheet) {
        Some(told) => of_bars(&events, &told),
        None => parts(&events, &judge(sheet)),
    };
    let besides = why.of_the_sheet().map_or("", |answer| besides(sheet, &answer));
    let told = string(format!("{}{besides}", why.explain(sheet)).as_bytes());
    format!("{{{called},\"line\":\"{why}\",{parts},\"sentence\":{told}}}")
}

fn of_bars(events: &Events, told: &KeptInWords) -> String {
    let joined = |all: Vec<String>| format!("[{}]", all.join(","));
    let bar = |told: &BarInWords| {
        let Bar { reader, writer, between } = told.bar;
        let names = events.names(vec![("reader", reader), ("writer", writer), ("between", between)], None);
        let by = told.reasons.iter().map(|reason| string(reason.to_string().as_bytes())).collect();
        format!("{{{names},\"by\":{},\"sentence\":{}}}", joined(by), string(told.sentence.as_bytes()))
    };
    let circles = match &told.circles {
        Circles::One(circle) => vec![of_circle(circle, None)],
        Circles::Either { events: (e, d), first, second } => {
            vec![of_circle(first, Some([*e, *d])), of_circle(second, Some([*d, *e]))]
        }
        Circles::Choices => vec![],
    };
    format!(
        "\"answer\":\"kept\",\"number\":26,\"bars\":{},\"circles\":{},\"circle_lines\":{}",
        joined(told.bars.iter().map(bar).collect()),
        joined(circles),
        joined(told.circle_lines.iter().map(|line| string(line.as_bytes())).collect())
    )
}

/// `supposed`: of two events that can stand in either order, the one that is taken here.
fn of_circle(circle: &Circle, supposed: Option<[u8; 2]>) -> String {
    let step = |step: &Step| {
        let by = match step.by {
            By::HappensBefore => "\"happens before\"".to_string(),
            By::Supposed => "\"supposed\"".to_string(),
            By::Bar(bar) => format!("\"bar\",\"bar\":{}", numbers(&[bar.reader, bar.writer, bar.between])),
        };
        format!("{{\"before\":{},\"after\":{},\"by\":{by}}}", step.before, step.after)
    };
    let steps: Vec<String> = circle.steps.iter().map(step).collect();
    let supposed = supposed.map_or(String::new(), |pair| format!("\"supposed\":{},", numbers(&pair)));
    format!("{{{supposed}\"round\":{},\"steps\":[{}]}}", numbers(&circle.round), steps.join(","))
}

#[cfg(test)]
mod tests {
    use super::{line, string};

    #[test]
    fn strings() {
        assert_eq!(string(b"a\"b\\c\n\x7f\xff"), "\"a\\\"b\\\\c\\u000a\\u007f\u{fffd}\"");
    }

    #[test]
    fn a_refusal() {
        let answer = plimdrong::judge(&[]);
        let told = line("\"name\":\"x\"", &[], &answer);
        assert!(told.starts_with(
            "{\"name\":\"x\",\"line\":\"refused 3 at 0\",\"answer\":\"refused\",\"number\":3,\"place\":0,\"sentence\":\"A tag"
        ));
    }
}
