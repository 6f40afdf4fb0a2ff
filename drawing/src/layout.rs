//! Where things go: the columns of labels, the scale of points, the lanes of marks, the heights of rows.

use crate::scene::{Bar, Mark, Row, Scene};
use crate::style::text_width;

pub const MARGIN: f64 = 14.0;
/// The least width, so that the legend of a small job can be read.
const LEAST_WIDTH: f64 = 860.0;
const LANE: f64 = 13.0;
/// Half of a mark with its halo.
const HALF: f64 = 6.0;
/// The width of an instruction from which on marks have a short text beside them.
const ROOMY: f64 = 44.0;

/// The scale of points.
pub struct Chart {
    pub x0: f64,
    /// Units for an instruction.
    pub step: f64,
    pub insts: u64,
}

impl Chart {
    pub fn x(&self, point: f64) -> f64 {
        self.x0 + (point / 4.0).clamp(0.0, self.insts as f64) * self.step
    }

    pub fn right(&self) -> f64 {
        self.x0 + self.insts as f64 * self.step
    }

    pub fn roomy(&self) -> bool {
        self.step >= ROOMY
    }
}

/// Wide for few instructions, 14 units for a hundred, never a page wider than 16,384 units.
fn step(insts: u64) -> f64 {
    let insts = insts.max(1) as f64;
    if insts <= 400.0 { (1150.0 / insts).clamp(14.0, 92.0) } else { (5600.0 / insts).max(4.0).min(16_384.0 / insts) }
}

/// A mark: its middle, its lane, and where its short text begins or ends.
pub struct PlacedMark {
    pub x: f64,
    pub lane: usize,
    pub text_left: bool,
}

pub struct PlacedRow {
    pub y: f64,
    pub height: f64,
    /// By bar: whether its marks would hide it, so that they hang below it.
    pub narrow: Vec<bool>,
    /// By bar, then by mark.
    pub marks: Vec<Vec<PlacedMark>>,
}

impl PlacedRow {
    /// The top and the height of a bar.
    pub fn bar(&self, at: usize) -> (f64, f64) {
        let height = if self.narrow[at] { LANE + 3.0 } else { self.height - 7.0 };
        (self.y + 3.5, height)
    }

    pub fn middle(&self) -> f64 {
        self.y + self.height / 2.0
    }

    pub fn mark_y(&self, mark: &PlacedMark) -> f64 {
        self.y + 3.5 + 8.0 + LANE * mark.lane as f64
    }
}

pub struct Layout {
    pub chart: Chart,
    /// The left side of each column of labels, and of the chart.
    pub columns: Vec<f64>,
    /// The lane of each group's bracket.
    pub brackets: Vec<usize>,
    pub bracket_lane: f64,
    pub rows: Vec<PlacedRow>,
    pub width: f64,
}

pub fn layout(scene: &Scene, insts: u64) -> Layout {
    let brackets = bracket_lanes(scene);
    let bracket_lane = 20.0 + scene.groups.iter().map(|group| digits(group.number)).fold(0.0, f64::max);
    let lanes = brackets.iter().map(|lane| lane + 1).max().unwrap_or(0);
    let columns = columns(scene, MARGIN + lanes as f64 * bracket_lane);
    let x0 = columns.last().copied().unwrap_or(MARGIN) + 8.0;
    let chart = Chart { x0, step: step(insts), insts };
    let rows = scene.rows.iter().map(|row| place_row(&chart, row)).collect();
    let width = (chart.right() + 2.0 * MARGIN).max(LEAST_WIDTH);
    Layout { chart, columns, brackets, bracket_lane, rows, width }
}

fn digits(number: u32) -> f64 {
    text_width(&format!("g{number}"), 9.0)
}

/// The left sides of the columns, as wide as their widest text.
fn columns(scene: &Scene, left: f64) -> Vec<f64> {
    let mut at = left;
    let mut columns = vec![at];
    for (column, head) in scene.heads.iter().enumerate() {
        let cells = scene.rows.iter().filter_map(|row| row.cells.get(column));
        let widest = cells.map(|cell| text_width(cell, 11.0)).fold(text_width(head, 9.0), f64::max);
        let swatch = if is_class_column(head) { 14.0 } else { 0.0 };
        at += widest.max(text_width(head, 9.0) - swatch) + swatch + 8.0;
        columns.push(at);
    }
    columns
}

/// Whether a colour stands beside the number in a column.
pub fn is_class_column(head: &str) -> bool {
    head.ends_with("class")
}

/// Each group's lane, so that no two brackets in a lane share a row.
fn bracket_lanes(scene: &Scene) -> Vec<usize> {
    let mut ends: Vec<usize> = Vec::new();
    let mut lanes = vec![0; scene.groups.len()];
    let mut order: Vec<_> = (0..scene.groups.len()).collect();
    order.sort_by_key(|&at| scene.groups[at].places.iter().flatten().min().copied());
    for at in order {
        let rows = || scene.groups[at].places.iter().flatten().copied();
        let Some((first, last)) = rows().min().zip(rows().max()) else { continue };
        let free = ends.iter().position(|&end| end < first);
        lanes[at] = free.unwrap_or(ends.len());
        match free {
            Some(lane) => ends[lane] = last,
            None => ends.push(last),
        }
    }
    lanes
}

fn place_row(chart: &Chart, row: &Row) -> PlacedRow {
    let marks: Vec<Vec<PlacedMark>> = row.bars.iter().map(|bar| place_marks(chart, bar)).collect();
    let narrow = row.bars.iter().zip(&marks).map(|(bar, marks)| is_narrow(chart, bar, marks)).collect();
    let mut placed = PlacedRow { y: 0.0, height: 0.0, narrow, marks };
    let lanes = set_lanes(chart, row, &mut placed);
    placed.height = 10.0 + LANE * lanes as f64;
    placed
}

/// Whether the marks of a bar would leave nothing of it to be seen.
fn is_narrow(chart: &Chart, bar: &Bar, marks: &[PlacedMark]) -> bool {
    let width = chart.x(f64::from(bar.to)) - chart.x(f64::from(bar.from));
    let spans = bar.marks.iter().zip(marks).map(|(mark, placed)| span(chart, mark, placed));
    spans.map(|(from, to)| to - from).fold(0.0, f64::max) + 8.0 > width && !marks.is_empty()
}

/// Gives each mark the first lane that is free for it, and says how many lanes there are.
fn set_lanes(chart: &Chart, row: &Row, placed: &mut PlacedRow) -> usize {
    let mut spans = Vec::new();
    for (at, bar) in row.bars.iter().enumerate() {
        let marks = bar.marks.iter().enumerate();
        spans.extend(marks.map(|(u, mark)| (span(chart, mark, &placed.marks[at][u]), at, u)));
    }
    spans.sort_by(|a, b| a.0.0.total_cmp(&b.0.0));
    let mut ends = vec![f64::NEG_INFINITY];
    for ((from, to), at, u) in spans {
        let first = usize::from(placed.narrow[at]);
        let lane = (first..ends.len()).find(|&lane| ends[lane] <= from).unwrap_or(ends.len());
        if lane == ends.len() {
            ends.push(to);
        }
        ends[lane] = to;
        placed.marks[at][u].lane = lane;
    }
    ends.len()
}

/// Marks where their kinds stand in the instruction, inside their bar. Uses have their text at the left, if it fits.
fn place_marks(chart: &Chart, bar: &Bar) -> Vec<PlacedMark> {
    let left = chart.x(f64::from(bar.from));
    let place = |mark: &Mark| {
        let x = middle(chart, bar, mark);
        let fits_left = x - short_width(mark) - HALF >= left;
        let fits_right = x + short_width(mark) + HALF <= chart.right() + MARGIN;
        let text_left = fits_left && (matches!(mark.kind, 1..=4 | 6) || !fits_right);
        PlacedMark { x, lane: 0, text_left }
    };
    bar.marks.iter().map(place).collect()
}

/// A mark's middle. One that ends where its instruction begins may stand on the end of its bar.
fn middle(chart: &Chart, bar: &Bar, mark: &Mark) -> f64 {
    let inst = 4.0 * f64::from(mark.inst);
    let (left, right) = (chart.x(f64::from(bar.from)), chart.x(f64::from(bar.to)));
    let edge = f64::min(5.0, chart.step * 0.35);
    let (least, most) = (left + edge, (right - edge).max(chart.x(inst)));
    if least <= most { chart.x(inst + anchor(mark.kind)).max(least).min(most) } else { (left + right) / 2.0 }
}

fn anchor(kind: u32) -> f64 {
    match kind {
        1 | 2 | 3 | 8 => 0.9,
        4 | 6 => 1.5,
        0 | 5 | 7 => 2.6,
        _ => 3.1,
    }
}

pub fn short_width(mark: &Mark) -> f64 {
    if mark.short.is_empty() { 0.0 } else { text_width(&mark.short, 9.0) + 3.0 }
}

/// What a mark covers from left to right.
fn span(chart: &Chart, mark: &Mark, placed: &PlacedMark) -> (f64, f64) {
    let text = if chart.roomy() { short_width(mark) } else { 0.0 };
    match placed.text_left {
        true => (placed.x - HALF - text, placed.x + HALF),
        false => (placed.x - HALF, placed.x + HALF + text),
    }
}
