//! The circle that kept bars make with happens-before: why they leave no order.
//!
//! A bar (R, W, V) leaves two ways: where W stands before V, R stands before V; where V stands before R, V stands before W.
//! From happens-before on, what bars force is added until an event would have to stand before itself.

use crate::{Bar, HappensBefore};
use std::fmt;

/// One step of a circle: in every order `before` stands before `after`.
#[derive(Clone, Copy, Debug, PartialEq, Eq)]
pub struct Step {
    pub before: u8,
    pub after: u8,
    pub by: By,
}

/// Why it does.
#[derive(Clone, Copy, Debug, PartialEq, Eq)]
pub enum By {
    /// It happens before it.
    HappensBefore,
    /// It was supposed, as one of two ways.
    Supposed,
    /// The bar forces it, by what happens before and by the steps in front of this one: either the step is from the reader
    /// to the write between, since the writer stands before that write; or it is from the write between to the writer, since
    /// that write stands before the reader.
    Bar(Bar),
}

impl Step {
    /// Of a step that a bar forces, what must stand before what for that.
    pub fn needs(&self) -> Option<(u8, u8)> {
        match self.by {
            By::Bar(Bar { reader, writer, between }) if (self.before, self.after) == (reader, between) => {
                Some((writer, between))
            }
            By::Bar(Bar { reader, between, .. }) => Some((between, reader)),
            By::HappensBefore | By::Supposed => None,
        }
    }
}

/// Steps that lead an event back to itself.
#[derive(Clone, Debug, PartialEq, Eq)]
pub struct Circle {
    /// The events of the circle: each stands before the next by one of the steps, and the last before the first.
    pub round: Vec<u8>,
    /// The steps, each of which follows from happens-before and those in front of it. Where a bar forces nothing by
    /// happens-before alone, steps stand among them that are not in the circle itself.
    pub steps: Vec<Step>,
}

/// Why bars leave no order.
#[derive(Clone, Debug, PartialEq, Eq)]
pub enum Circles {
    /// What they force makes a circle.
    One(Circle),
    /// What they force makes none, but whichever of two events stands first, there is one.
    Either {
        /// The two events.
        events: (u8, u8),
        /// Where the first stands before the second,
        first: Circle,
        /// and where it stands behind it.
        second: Circle,
    },
    /// More than one such choice is left, and each fails.
    Choices,
}

/// More than any way costs.
const NEVER: u32 = u32::MAX / 4;

/// Why an event stands before another, as far as it was found out.
#[derive(Clone, Copy)]
enum Found {
    Step(By),
    /// By way of this event.
    By(u8),
}

/// What stands before what, each with the fewest steps that show it.
struct Forced<'a> {
    before: &'a HappensBefore,
    supposed: Option<(u8, u8)>,
    cost: Vec<Vec<u32>>,
    found: Vec<Vec<Found>>,
}

impl<'a> Forced<'a> {
    fn of(before: &'a HappensBefore, bars: &[Bar], supposed: Option<(u8, u8)>) -> Forced<'a> {
        let n = usize::from(before.events());
        let found = vec![vec![Found::Step(By::HappensBefore); n]; n];
        let mut forced = Forced { before, supposed, cost: vec![vec![NEVER; n]; n], found };
        for (e, d) in (0..n as u8).flat_map(|e| (0..n as u8).map(move |d| (e, d))) {
            if before.is(e, d) {
                forced.better((e, d), 1, Found::Step(By::HappensBefore));
            }
        }
        if let Some(pair) = supposed {
            forced.better(pair, 1, Found::Step(By::Supposed));
        }
        let fit = |bar: &&Bar| [bar.reader, bar.writer, bar.between].iter().all(|&e| usize::from(e) < n);
        let bars: Vec<&Bar> = bars.iter().filter(fit).collect();
        while forced.again(&bars) {}
        forced
    }

    fn at(&self, (e, d): (u8, u8)) -> u32 {
        self.cost[usize::from(e)][usize::from(d)]
    }

    /// Whether this way is shorter than what was known.
    fn better(&mut self, (e, d): (u8, u8), cost: u32, found: Found) -> bool {
        let (e, d) = (usize::from(e), usize::from(d));
        let better = cost < self.cost[e][d];
        if better {
            self.cost[e][d] = cost;
            self.found[e][d] = found;
        }
        better
    }

    /// Whether it needs no step to be shown first.
    fn given(&self, pair: (u8, u8)) -> bool {
        self.before.is(pair.0, pair.1) || self.supposed == Some(pair)
    }

    /// Every bar and every two steps once. Whether something was found. What is found costs more than what it comes of, so
    /// it never rests on itself.
    fn again(&mut self, bars: &[&Bar]) -> bool {
        let mut more = false;
        for bar in bars {
            let Bar { reader, writer, between } = **bar;
            for (needed, so) in [((writer, between), (reader, between)), ((between, reader), (between, writer))] {
                let cost = if self.given(needed) { 1 } else { 1 + self.at(needed) };
                more |= cost < NEVER && self.better(so, cost, Found::Step(By::Bar(**bar)));
            }
        }
        let n = self.cost.len() as u8;
        for by in 0..n {
            for e in (0..n).filter(|&e| e != by) {
                for d in (0..n).filter(|&d| d != by) {
                    let cost = self.at((e, by)) + self.at((by, d));
                    more |= cost < NEVER && self.better((e, d), cost, Found::By(by));
                }
            }
        }
        more
    }

    /// The steps from one event to another.
    fn way(&self, (before, after): (u8, u8)) -> Vec<Step> {
        match self.found[usize::from(before)][usize::from(after)] {
            Found::Step(by) => vec![Step { before, after, by }],
            Found::By(by) => [self.way((before, by)), self.way((by, after))].concat(),
        }
    }

    /// Adds a step, after those that it needs.
    fn show(&self, step: Step, steps: &mut Vec<Step>) {
        if steps.contains(&step) {
            return;
        }
        if let Some(needed) = step.needs().filter(|&needed| !self.given(needed)) {
            self.way(needed).into_iter().for_each(|step| self.show(step, steps));
        }
        steps.push(step);
    }

    /// The shortest circle, from its lowest event on.
    fn circle(&self) -> Option<Circle> {
        let start = (0..self.before.events()).min_by_key(|&e| self.at((e, e)))?;
        if self.at((start, start)) >= NEVER {
            return None;
        }
        let mut way = self.way((start, start));
        let lowest = (0..way.len()).min_by_key(|&i| way[i].before)?;
        way.rotate_left(lowest);
        let mut steps = vec![];
        way.iter().for_each(|&step| self.show(step, &mut steps));
        Some(Circle { round: way.iter().map(|step| step.before).collect(), steps })
    }
}

impl Circles {
    /// Why these bars, together with happens-before, leave no order, where they leave none. Of bars that some order meets it
    /// is nothing or [`Circles::Choices`].
    pub fn of(before: &HappensBefore, bars: &[Bar]) -> Option<Circles> {
        let forced = Forced::of(before, bars, None);
        if let Some(circle) = forced.circle() {
            return Some(Circles::One(circle));
        }
        let open = |e: u8, d: u8| forced.at((e, d)) >= NEVER && forced.at((d, e)) >= NEVER;
        let n = before.events();
        let mut best: Option<(usize, Circles)> = None;
        let mut choices = false;
        for (e, d) in (0..n).flat_map(|e| (e + 1..n).map(move |d| (e, d))).filter(|&(e, d)| open(e, d)) {
            choices = true;
            let circle = |pair| Forced::of(before, bars, Some(pair)).circle();
            if let (Some(first), Some(second)) = (circle((e, d)), circle((d, e))) {
                let cost = first.steps.len() + second.steps.len();
                if best.as_ref().is_none_or(|(least, _)| cost < *least) {
                    best = Some((cost, Circles::Either { events: (e, d), first, second }));
                }
            }
        }
        match best {
            Some((_, either)) => Some(either),
            None => choices.then_some(Circles::Choices),
        }
    }

    /// In lines, at most [`CIRCLE_LINES`], without a space in front.
    pub fn lines(&self, before: &HappensBefore) -> Vec<String> {
        match self {
            Circles::One(circle) => circle.lines(before, None, CIRCLE_LINES),
            Circles::Either { events: (e, d), first, second } => {
                let room = CIRCLE_LINES - 3;
                let all = |circle: &Circle, pair| circle.lines(before, Some(pair), CIRCLE_LINES).len();
                let (one, two) = (all(first, (*e, *d)), all(second, (*d, *e)));
                // the shorter of the two gets what it needs, up to half
                let of_one = if one + two <= room { one } else { one.min((room - two.min(room / 2)).max(room / 2)) };
                let mut lines =
                    vec![format!("no single circle: whichever of events {e} and {d} stands first, there is one.")];
                for (e, d, circle, room) in [(e, d, first, of_one), (d, e, second, room - of_one)] {
                    lines.push(format!("where event {e} stands before event {d}:"));
                    lines.extend(circle.lines(before, Some((*e, *d)), room).iter().map(|line| format!("  {line}")));
                }
                lines
            }
            Circles::Choices => vec![
                "no single circle: the bars leave more than one choice of which event stands first, and each choice fails."
                    .to_string(),
            ],
        }
    }
}

/// The most lines of [`Circles::lines`].
pub const CIRCLE_LINES: usize = 10;

impl Circle {
    /// The steps that make it, one after another.
    fn is_round(&self) -> bool {
        let next = self.round.iter().skip(1).chain(self.round.first());
        let pairs = self.round.iter().zip(next);
        self.steps.len() == self.round.len()
            && self
                .steps
                .iter()
                .zip(pairs)
                .all(|(step, (before, after))| (&step.before, &step.after) == (before, after))
    }

    /// In at most so many lines: a step each, or several where there are more.
    fn lines(&self, before: &HappensBefore, supposed: Option<(u8, u8)>, room: usize) -> Vec<String> {
        let told = |step: &Step| Told { step: *step, before, supposed };
        let single: Vec<String> = self.steps.iter().map(|step| told(step).whole()).collect();
        // a step of happens-before and the one behind it
        let mut joined: Vec<String> = vec![];
        let mut steps = self.steps.iter().peekable();
        while let Some(step) = steps.next() {
            match steps.next_if(|next| step.by == By::HappensBefore && step.after == next.before) {
                Some(next) => joined.push(format!("{step}; {}", told(next).whole())),
                None => joined.push(told(step).whole()),
            }
        }
        let short = |in_a_line: usize| -> Vec<String> {
            let pieces = |steps: &[Step]| steps.iter().map(|step| step.to_string()).collect::<Vec<_>>().join("; ");
            self.steps.chunks(in_a_line).map(pieces).collect()
        };
        let shorter = (2..=self.steps.len().max(2)).map(short);
        let mut all = [single, joined].into_iter().chain(shorter).map(|lines| self.closed(lines));
        let fits = |lines: &Vec<String>| lines.len() <= room.max(1);
        let last = all.find(fits);
        last.unwrap_or_else(|| vec![self.closed(short(self.steps.len().max(1))).join(" ")])
    }

    /// With what follows at the end.
    fn closed(&self, mut lines: Vec<String>) -> Vec<String> {
        let first = self.round.first().copied().unwrap_or(0);
        match lines.last_mut() {
            Some(last) if self.is_round() => *last += &format!(": and so event {first} would stand before itself."),
            _ => {
                let round: Vec<String> = self.round.iter().map(|e| e.to_string()).collect();
                let round = round.join(" before ");
                lines.push(format!("so {round} before {first}: event {first} would stand before itself."));
            }
        }
        lines
    }
}

/// A step in few words.
impl fmt::Display for Step {
    fn fmt(&self, f: &mut fmt::Formatter) -> fmt::Result {
        let Step { before, after, by } = self;
        match by {
            By::HappensBefore => write!(f, "event {before} happens before event {after}"),
            By::Supposed => write!(f, "event {before} stands before event {after} here"),
            By::Bar(bar) => write!(f, "event {before} stands before event {after} (bar {bar})"),
        }
    }
}

/// A step with its reason.
struct Told<'a> {
    step: Step,
    before: &'a HappensBefore,
    supposed: Option<(u8, u8)>,
}

impl Told<'_> {
    fn whole(&self) -> String {
        let Step { before, after, by } = self.step;
        let stands = |(e, d): (u8, u8)| if self.before.is(e, d) { "happens" } else { "stands" };
        let needed = self.step.needs();
        let reason = match by {
            By::HappensBefore => "it happens before it".to_string(),
            By::Supposed => "so it is taken here".to_string(),
            By::Bar(bar @ Bar { reader, writer, between }) => {
                let stands = needed.map_or("stands", stands);
                let here = if needed.is_some() && needed == self.supposed { " here" } else { "" };
                if (before, after) == (reader, between) {
                    format!("it read from event {writer}, which {stands} before event {between}{here} (bar {bar})")
                } else {
                    format!(
                        "event {reader} read from event {writer}, and event {between} {stands} before event {reader}{here} \
                         (bar {bar})"
                    )
                }
            }
        };
        format!("event {before} stands before event {after}: {reason}")
    }
}
