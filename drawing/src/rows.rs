//! The rows: labels, bars and marks.

use crate::head::{Band, every};
use crate::job::Job;
use crate::layout::{Layout, MARGIN, PlacedMark, PlacedRow, is_class_column, short_width};
use crate::marks;
use crate::page::Page;
use crate::scene::{Bar, Mark, Row, Scene};
use crate::style::{colour, text_width};
use crate::svg::{N, Svg};

/// The heads of the label columns, beside the numbers of the instructions.
pub fn heads(page: &mut Page, scene: &Scene, layout: &Layout) {
    for (head, x) in scene.heads.iter().zip(&layout.columns) {
        page.svg.text((*x, page.y + 12.0), "small grey", head);
    }
}

/// What lies behind the rows: the blocks' shades and the lines between instructions and blocks.
pub fn ground(page: &mut Page, layout: &Layout, bands: &[Band], height: f64) {
    let (chart, y) = (&layout.chart, page.y);
    page.svg.open("g", &[("opacity", &"0.28")]);
    for band in bands {
        page.svg.rect((band.left, y), (band.right - band.left, height), "ground", &band.shade);
    }
    page.svg.close();
    let every = if chart.step >= 8.0 { 1 } else { every(chart) };
    let mut inst = 0;
    while inst <= chart.insts {
        let x = chart.x(4.0 * inst as f64);
        page.svg.line((x, y), (x, y + height), "grid");
        inst += every;
    }
    for x in bands.iter().map(|band| band.left).chain(bands.last().map(|band| band.right)) {
        page.svg.line((x, y), (x, y + height), "edge");
    }
}

/// A row with its labels and bars; a line above it where a new set begins.
pub fn row(page: &mut Page, job: &Job, scene: &Scene, layout: &Layout, at: usize) {
    let (row, placed) = (&scene.rows[at], &layout.rows[at]);
    let right = layout.chart.right();
    let class = if scene.registers { "register" } else { "segment" };
    if at > 0 && scene.rows[at - 1].set != row.set {
        page.svg.line((MARGIN, placed.y), (right, placed.y), "rule");
    }
    page.svg.open("g", &[("class", &class)]);
    page.svg.title(&row.title);
    if row.pointed {
        page.svg.rect((MARGIN, placed.y + 1.0), (right - MARGIN, placed.height - 2.0), "here", "#ffe27a");
    }
    labels(&mut page.svg, scene, layout, at);
    let known = row.class.filter(|&class| (class as usize) < job.classes.len().max(1));
    for (at, bar) in row.bars.iter().enumerate() {
        draw_bar(&mut page.svg, layout, placed.bar(at), bar, known);
    }
    page.svg.close();
}

fn labels(svg: &mut Svg, scene: &Scene, layout: &Layout, at: usize) {
    let (row, y) = (&scene.rows[at], layout.rows[at].middle() + 4.0);
    for ((cell, head), &x) in row.cells.iter().zip(&scene.heads).zip(&layout.columns) {
        let swatch = row.class.filter(|_| is_class_column(head));
        if let Some(class) = swatch {
            svg.rect((x, y - 9.0), (10.0, 10.0), "edge", &colour(class));
        }
        let x = if swatch.is_some() { x + 14.0 } else { x };
        let style = if std::ptr::eq(cell, &row.cells[0]) { "bold" } else { "plain" };
        svg.text((x, y), style, cell);
    }
}

/// A bar: filled, hatched for a conflict piece; a closed end has a line, an open one is notched or pointed.
fn draw_bar(svg: &mut Svg, layout: &Layout, (y, height): (f64, f64), bar: &Bar, class: Option<u32>) {
    let left = layout.chart.x(f64::from(bar.from));
    let right = layout.chart.x(f64::from(bar.to)).max(left + 3.0);
    let origin = if bar.conflict { "piece conflict" } else { "piece own" };
    let fill = match class {
        Some(class) if bar.conflict => format!("url(#hatch-{class})"),
        Some(class) => colour(class),
        None => "#dddddd".into(),
    };
    svg.open("g", &[("class", &origin)]);
    svg.title(&bar.title);
    shape(svg, (left, right), (y, height), bar.flags, &fill);
    svg.close();
}

pub fn shape(svg: &mut Svg, (left, right): (f64, f64), (y, height): (f64, f64), flags: u32, fill: &str) {
    let notch = f64::min(6.0, (right - left) / 3.0);
    let inner = if flags & 1 != 0 { notch } else { 0.0 };
    let outer = if flags & 2 != 0 { notch } else { 0.0 };
    let (l, r, top, middle, bottom) = (N(left), N(right - outer), N(y), N(y + height / 2.0), N(y + height));
    let (tip, dent) = (N(right), N(left + inner));
    let outline = format!("M{l} {top}H{r}L{tip} {middle}L{r} {bottom}H{l}L{dent} {middle}Z");
    svg.leaf("path", &[("d", &outline), ("fill", &fill)]);
    let mut lines = format!("M{l} {top}H{r}M{l} {bottom}H{r}");
    if flags & 1 == 0 {
        lines += &format!("M{l} {top}V{bottom}");
    }
    if flags & 2 == 0 {
        lines += &format!("M{r} {top}V{bottom}");
    }
    svg.path(&lines, "outline");
    if flags & 4 != 0 {
        svg.path(&format!("M{} {}H{}", N(left + 1.0), N(y + height - 2.0), N(right - outer - 1.0)), "hint");
    }
    if flags & 8 != 0 {
        svg.path(&format!("M{} {top}V{bottom}", N(left + 2.0)), "hint");
    }
}

/// The marks of a row, over all lines.
pub fn marks(page: &mut Page, row: &Row, placed: &PlacedRow, roomy: bool) {
    for (bar, places) in row.bars.iter().zip(&placed.marks) {
        for (mark, place) in bar.marks.iter().zip(places) {
            draw_mark(&mut page.svg, mark, place, placed.mark_y(place), roomy);
        }
    }
}

fn draw_mark(svg: &mut Svg, mark: &Mark, place: &PlacedMark, y: f64, roomy: bool) {
    let class = format!("use kind-{}", mark.kind);
    svg.open("g", &[("class", &class)]);
    svg.title(&mark.title);
    if roomy && !mark.short.is_empty() {
        let width = text_width(&mark.short, 9.0);
        let left = if place.text_left { place.x - 5.0 - short_width(mark) } else { place.x + 5.0 };
        let back = "#ffffff";
        svg.rect((left, y - 5.5), (width + 3.0, 11.0), "back", back);
        svg.text((left + width / 2.0 + 1.5, y + 3.3), "small mid", &mark.short);
    }
    marks::draw(svg, mark.kind, (place.x, y));
    if mark.pointed {
        svg.leaf("circle", &[("cx", &N(place.x)), ("cy", &N(y)), ("r", &"8"), ("class", &"ring")]);
    }
    svg.close();
}
