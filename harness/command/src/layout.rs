//! Where everything stands in the picture of a sheet: a column for the inits and for each agent, a row for each event.
//!
//! A row holds one box. So a line leaves its writer's box sideways, along a row that is empty beside it, turns in a
//! gutter between two columns, and reaches its reader's box sideways again: it runs through no box. In a gutter each
//! line has its own lane, at the side of a box its own port, so no line lies on another.

/// What the layout is made from: boxes from top to bottom, and lines between them.
pub struct Wanted {
    /// How many columns; each has a box.
    pub columns: usize,
    pub boxes: Vec<WantedBox>,
    pub lines: Vec<WantedLine>,
}

pub struct WantedBox {
    pub column: usize,
    pub width: i32,
    pub height: i32,
}

/// A line from one box to another, by their places in the list of boxes.
#[derive(Clone, Copy)]
pub struct WantedLine {
    pub from: usize,
    pub to: usize,
}

pub struct Layout {
    pub width: i32,
    pub height: i32,
    /// Left edge and width of each column.
    pub columns: Vec<(i32, i32)>,
    pub boxes: Vec<Rect>,
    /// The four points of each line: along the writer's row, down or up a lane, along the reader's row.
    pub lines: Vec<[(i32, i32); 4]>,
}

#[derive(Clone, Copy, Debug, PartialEq, Eq)]
pub struct Rect {
    pub x: i32,
    pub y: i32,
    pub width: i32,
    pub height: i32,
}

/// From the picture's edge to the first and from the last column.
const EDGE: i32 = 20;
/// Between two lanes of a gutter.
const LANE: i32 = 8;
/// Between a box and the nearest lane: an arrowhead and the turn before it.
const BESIDE: i32 = 22;
/// Between two boxes, one below the other.
const GAP: i32 = 14;
/// Between two ports at a box's side, at least.
const PORT: i32 = 9;

/// The side of a box, and of a gutter, at which a line ends.
#[derive(Clone, Copy, PartialEq, Eq)]
enum Side {
    Left,
    Right,
}

/// A line's way: the gutter it turns in (the one left of the column of that number), and the sides of its boxes.
#[derive(Clone, Copy)]
struct Way {
    from: usize,
    to: usize,
    gutter: usize,
    out: Side,
    into: Side,
}

impl Way {
    /// The gutter is the one before the reader, so that the lines of one writer spread over several.
    fn of(line: WantedLine, boxes: &[WantedBox]) -> Way {
        let WantedLine { from, to } = line;
        let (start, end) = (boxes[from].column, boxes[to].column);
        if start < end {
            Way { from, to, gutter: end, out: Side::Right, into: Side::Left }
        } else {
            let out = if start == end { Side::Right } else { Side::Left };
            Way { from, to, gutter: end + 1, out, into: Side::Right }
        }
    }

    fn span(&self) -> (usize, usize) {
        (self.from.min(self.to), self.from.max(self.to))
    }

    fn beside(&self, other: &Way) -> bool {
        let ((a, b), (c, d)) = (self.span(), other.span());
        a <= d && c <= b
    }

    /// The rows at which it leaves its lane to this side of the gutter. A box's right side is at the gutter's left.
    fn ends(&self, side: Side) -> impl Iterator<Item = usize> {
        let ends = [(self.from, self.out), (self.to, self.into)];
        ends.into_iter().filter(move |(_, of_box)| *of_box != side).map(|(row, _)| row)
    }

    fn crosses(&self, row: usize) -> bool {
        let (low, high) = self.span();
        low < row && row < high
    }

    /// How often the two cross in their gutter if this one's lane is left of the other's.
    fn crossings(&self, other: &Way) -> usize {
        self.ends(Side::Right).filter(|&row| other.crosses(row)).count()
            + other.ends(Side::Left).filter(|&row| self.crosses(row)).count()
    }
}

impl Layout {
    /// `top` and `bottom` are left free above and below the rows.
    pub fn of(wanted: &Wanted, top: i32, bottom: i32) -> Layout {
        let ways: Vec<Way> = wanted.lines.iter().map(|&line| Way::of(line, &wanted.boxes)).collect();
        let lanes = lanes(&ways, wanted.columns);
        let gutters: Vec<i32> = (0..=wanted.columns).map(|g| gutter_width(&ways, &lanes, g, wanted.columns)).collect();
        let columns = columns(wanted, &gutters);
        let ports = Ports::of(&ways, &lanes, wanted.boxes.len());
        let boxes = boxes(wanted, &columns, &ports, top);
        let lane_x = |k: usize| match ways[k].gutter {
            0 => EDGE,
            g => columns[g - 1].0 + columns[g - 1].1 + BESIDE + LANE * lanes[k] as i32,
        };
        let lines = (0..ways.len()).map(|k| points(&ways[k], &boxes, lane_x(k), ports.of_line(k, &boxes))).collect();
        let width = columns.last().map_or(0, |(x, w)| x + w) + gutters[wanted.columns];
        let height = boxes.last().map_or(top, |b| b.y + b.height) + bottom;
        Layout { width, height, columns, boxes, lines }
    }
}

/// Lanes of all lines, counted from the left in each gutter.
fn lanes(ways: &[Way], columns: usize) -> Vec<usize> {
    let mut lanes = vec![0; ways.len()];
    for gutter in 0..=columns {
        let order = untangled(ways, (0..ways.len()).filter(|&k| ways[k].gutter == gutter).collect());
        for (i, &k) in order.iter().enumerate() {
            let taken = order[..i].iter().filter(|&&j| ways[j].beside(&ways[k])).map(|&j| lanes[j] + 1);
            lanes[k] = taken.max().unwrap_or(0);
        }
    }
    lanes
}

/// Lines of one gutter from left to right: neighbours change places as long as fewer cross.
fn untangled(ways: &[Way], mut order: Vec<usize>) -> Vec<usize> {
    for _ in 0..order.len() {
        let mut moved = false;
        for i in 1..order.len() {
            let (left, right) = (&ways[order[i - 1]], &ways[order[i]]);
            if right.crossings(left) < left.crossings(right) {
                order.swap(i - 1, i);
                moved = true;
            }
        }
        if !moved {
            break;
        }
    }
    order
}

fn gutter_width(ways: &[Way], lanes: &[usize], gutter: usize, columns: usize) -> i32 {
    let last = ways.iter().zip(lanes).filter(|(way, _)| way.gutter == gutter).map(|(_, &lane)| lane as i32).max();
    let least = if gutter == 0 || gutter == columns { EDGE } else { 2 * BESIDE };
    last.map_or(least, |lane| 2 * BESIDE + LANE * lane)
}

fn columns(wanted: &Wanted, gutters: &[i32]) -> Vec<(i32, i32)> {
    let mut left = 0;
    (0..wanted.columns)
        .map(|column| {
            let of_column = wanted.boxes.iter().filter(|b| b.column == column);
            let width = of_column.map(|b| b.width).max().unwrap_or(0);
            let x = left + gutters[column];
            left = x + width;
            (x, width)
        })
        .collect()
}

fn boxes(wanted: &Wanted, columns: &[(i32, i32)], ports: &Ports, top: i32) -> Vec<Rect> {
    let mut y = top;
    let mut boxes = Vec::with_capacity(wanted.boxes.len());
    for (row, b) in wanted.boxes.iter().enumerate() {
        let (x, width) = columns[b.column];
        let height = b.height.max(PORT * (ports.most(row) as i32 + 1));
        boxes.push(Rect { x, y, width, height });
        y += height + GAP;
    }
    boxes
}

/// The ends of lines at the left and at the right side of each box, from top to bottom: a line's number, and whether it
/// starts there.
struct Ports {
    left: Vec<Vec<(usize, bool)>>,
    right: Vec<Vec<(usize, bool)>>,
}

impl Ports {
    fn of(ways: &[Way], lanes: &[usize], boxes: usize) -> Ports {
        let mut ports = Ports { left: vec![vec![]; boxes], right: vec![vec![]; boxes] };
        for (k, way) in ways.iter().enumerate() {
            ports.side(way.out)[way.from].push((k, true));
            ports.side(way.into)[way.to].push((k, false));
        }
        for side in [Side::Left, Side::Right] {
            for (row, ends) in ports.side(side).iter_mut().enumerate() {
                ends.sort_by_key(|&(k, _)| place_at_side(&ways[k], lanes[k], row, side));
            }
        }
        ports
    }

    fn side(&mut self, side: Side) -> &mut Vec<Vec<(usize, bool)>> {
        match side {
            Side::Left => &mut self.left,
            Side::Right => &mut self.right,
        }
    }

    fn most(&self, row: usize) -> usize {
        self.left[row].len().max(self.right[row].len())
    }

    /// The heights at which a line starts and ends.
    fn of_line(&self, k: usize, boxes: &[Rect]) -> (i32, i32) {
        let y = |starts: bool| {
            let sides = self.left.iter().zip(boxes).chain(self.right.iter().zip(boxes));
            let mut found = sides.filter_map(|(ends, b)| {
                let place = ends.iter().position(|end| *end == (k, starts))? as i32;
                Some(b.y + b.height * (place + 1) / (ends.len() as i32 + 1))
            });
            found.next().unwrap_or(0)
        };
        (y(true), y(false))
    }
}

/// Sorts the ends at a box's side so that lines to one side do not cross: those that go up come first, the nearest
/// topmost; of those that go down the farthest.
fn place_at_side(way: &Way, lane: usize, row: usize, side: Side) -> (bool, i64) {
    let other = if way.from == row { way.to } else { way.from };
    let place = (way.gutter * 1000 + lane) as i64;
    let far = if side == Side::Right { place } else { -place };
    let down = other > row;
    (down, if down { -far } else { far })
}

fn points(way: &Way, boxes: &[Rect], lane: i32, (start, end): (i32, i32)) -> [(i32, i32); 4] {
    let edge = |row: usize, side: Side| match side {
        Side::Left => boxes[row].x,
        Side::Right => boxes[row].x + boxes[row].width,
    };
    [(edge(way.from, way.out), start), (lane, start), (lane, end), (edge(way.to, way.into), end)]
}

#[cfg(test)]
pub mod tests {
    use super::*;

    type Segment = ((i32, i32), (i32, i32));

    fn segments(line: &[(i32, i32); 4]) -> Vec<Segment> {
        line.windows(2).map(|w| (w[0].min(w[1]), w[0].max(w[1]))).collect()
    }

    fn runs_through(((x0, y0), (x1, y1)): Segment, b: &Rect) -> bool {
        x0 < b.x + b.width && x1 > b.x && y0 < b.y + b.height && y1 > b.y
    }

    /// Whether two segments have more than a point in common.
    fn lie_on_one_another((a, b): Segment, (c, d): Segment) -> bool {
        let along = |p: (i32, i32), q: (i32, i32), r: (i32, i32), s: (i32, i32)| {
            p.1 == q.1 && r.1 == s.1 && p.1 == r.1 && p.0.max(r.0) < q.0.min(s.0)
        };
        let turn = |(x, y): (i32, i32)| (y, x);
        along(a, b, c, d) || along(turn(a), turn(b), turn(c), turn(d))
    }

    /// What every layout must be like.
    pub fn check(layout: &Layout, wanted: &Wanted) {
        for (i, a) in layout.boxes.iter().enumerate() {
            assert!(a.x >= EDGE && a.x + a.width + EDGE <= layout.width && a.y + a.height <= layout.height);
            assert!(a.width >= wanted.boxes[i].width && a.height >= wanted.boxes[i].height);
            assert!(layout.boxes[..i].iter().all(|b| b.y + b.height < a.y));
        }
        for (k, line) in layout.lines.iter().enumerate() {
            let WantedLine { from, to } = wanted.lines[k];
            for (point, row) in [(line[0], from), (line[3], to)] {
                let b = &layout.boxes[row];
                assert!(point.0 == b.x || point.0 == b.x + b.width);
                assert!(b.y < point.1 && point.1 < b.y + b.height);
            }
            assert!(line.iter().all(|&(x, y)| 0 < x && x < layout.width && 0 < y && y < layout.height));
            for segment in segments(line) {
                assert!(!layout.boxes.iter().any(|b| runs_through(segment, b)), "{line:?}");
                for other in layout.lines[..k].iter().flat_map(segments) {
                    assert!(!lie_on_one_another(segment, other), "{line:?} {other:?}");
                }
            }
        }
    }

    #[test]
    fn what_the_check_finds() {
        let b = Rect { x: 10, y: 10, width: 10, height: 10 };
        assert!(runs_through(((0, 15), (30, 15)), &b) && !runs_through(((0, 10), (30, 10)), &b));
        assert!(runs_through(((15, 0), (15, 30)), &b) && !runs_through(((0, 15), (10, 15)), &b));
        assert!(lie_on_one_another(((0, 0), (0, 9)), ((0, 8), (0, 12))));
        assert!(!lie_on_one_another(((0, 0), (0, 9)), ((0, 9), (0, 12))));
        assert!(!lie_on_one_another(((0, 0), (0, 9)), ((-5, 3), (5, 3))));
    }

    /// Every box to every other, in 9 columns: far more lines than any sheet has.
    #[test]
    fn all_to_all() {
        let boxes: Vec<WantedBox> =
            (0..22).map(|i| WantedBox { column: i * 7 % 9, width: 100 + i as i32, height: 30 }).collect();
        let lines =
            (0..22).flat_map(|from| (0..22).filter(move |&to| to != from).map(move |to| WantedLine { from, to }));
        let wanted = Wanted { columns: 9, boxes, lines: lines.collect() };
        check(&Layout::of(&wanted, 50, 20), &wanted);
    }
}
