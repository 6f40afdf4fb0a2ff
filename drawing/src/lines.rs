//! The lines between rows: cuts, turned uses, and the brackets of groups.

use crate::cuts::Cut;
use crate::layout::{Layout, MARGIN};
use crate::page::Page;
use crate::pair::Place;
use crate::scene::{Bracket, Scene};
use crate::style::text_width;
use crate::svg::{N, Svg};

/// From a turned use to its use in a conflict piece, or to the piece where its uses hang below it.
pub fn links(page: &mut Page, scene: &Scene, layout: &Layout) {
    let at = |(r, s, u): Place| {
        let (row, bar) = (&layout.rows[r], &scene.rows[r].bars[s]);
        let middle = (layout.chart.x(f64::from(bar.from)) + layout.chart.x(f64::from(bar.to))) / 2.0;
        match row.narrow[s] {
            true => (middle, row.bar(s).0),
            false => (row.marks[s][u].x, row.mark_y(&row.marks[s][u])),
        }
    };
    for link in &scene.links {
        page.svg.open("g", &[("class", &"link")]);
        page.svg.title(&link.title);
        page.svg.line(at(link.from), at(link.to), "linkline");
        page.svg.close();
    }
}

/// Cuts: an upright line where the pieces meet, a dotted one over a gap, with the instruction where there is room.
pub fn cuts(page: &mut Page, scene: &Scene, layout: &Layout) {
    let mut taken = taken(scene, layout);
    for cut in &scene.cuts {
        page.svg.open("g", &[("class", &"cut")]);
        page.svg.title(&cut.words());
        let (left, right) = ends(layout, cut);
        line(&mut page.svg, layout, left, right);
        if let Some(inst) = cut.instruction() {
            label(&mut page.svg, layout, &mut taken, left, right, inst);
        }
        page.svg.close();
    }
}

/// Where the line of a cut begins and ends: at its Boundary, or at the sides of the gap.
fn ends(layout: &Layout, cut: &Cut) -> (End, End) {
    let x = |point: u32| layout.chart.x(f64::from(point));
    let (from, to) = match cut.instruction() {
        Some(inst) => (layout.chart.x(4.0 * f64::from(inst)), layout.chart.x(4.0 * f64::from(inst))),
        None => (x(cut.from), x(cut.to)),
    };
    ((cut.left, from), (cut.right, to))
}

/// What bars, marks and lines cover, row by row.
fn taken(scene: &Scene, layout: &Layout) -> Vec<Vec<(f64, f64)>> {
    let mut taken: Vec<_> = (0..scene.rows.len()).map(|at| bars(scene, layout, at)).collect();
    let mut add = |a: End, b: End| {
        let span = (a.1.min(b.1) - 2.0, a.1.max(b.1) + 2.0);
        (a.0.min(b.0)..=a.0.max(b.0)).for_each(|row| taken[row].push(span));
    };
    for cut in &scene.cuts {
        let (left, right) = ends(layout, cut);
        add(left, right);
    }
    let x = |(r, s, u): Place| layout.rows[r].marks[s][u].x;
    for link in &scene.links {
        add((link.from.0, x(link.from)), (link.to.0, x(link.to)));
    }
    taken
}

/// Strong in the two rows that were one, thin over rows between them.
fn line(svg: &mut Svg, layout: &Layout, (left, x1): End, (right, x2): End) {
    let (upper, lower) = (&layout.rows[left.min(right)], &layout.rows[left.max(right)]);
    let (top, bottom) = (upper.y + 1.0, lower.y + lower.height - 1.0);
    let near = left.abs_diff(right) <= 1;
    if x1 == x2 && near {
        svg.line((x1, top), (x1, bottom), "cutline");
    } else if x1 == x2 {
        svg.line((x1, top), (x1, upper.y + upper.height), "cutline");
        svg.line((x1, top), (x1, bottom), "cutfar");
        svg.line((x1, lower.y), (x1, bottom), "cutline");
    } else {
        let (y1, y2) = (layout.rows[left].middle(), layout.rows[right].middle());
        let path = format!("M{} {}V{}H{}V{}", N(x1), N(y1), N(lower.y), N(x2), N(y2));
        svg.path(&path, "gapline");
    }
}

/// What bars and marks cover in a row.
fn bars(scene: &Scene, layout: &Layout, at: usize) -> Vec<(f64, f64)> {
    let chart = &layout.chart;
    let bars = scene.rows[at].bars.iter().map(|bar| (chart.x(f64::from(bar.from)), chart.x(f64::from(bar.to))));
    let marks = layout.rows[at].marks.iter().flatten().map(|mark| (mark.x - 6.0, mark.x + 6.0));
    bars.chain(marks).collect()
}

type End = (usize, f64);

/// The label stands left of the right-hand piece, or right of the left-hand one, wherever nothing else is.
fn label(svg: &mut Svg, layout: &Layout, taken: &mut [Vec<(f64, f64)>], left: End, right: End, inst: u32) {
    let words = format!("cut {inst}");
    let width = text_width(&words, 9.0);
    let beside = [(right.0, right.1 - 4.0 - width), (left.0, left.1 + 4.0)];
    let far_left = (1..8).map(|far| (right.0, right.1 - 4.0 - width - 8.0 * f64::from(far)));
    let far_right = (1..8).map(|far| (left.0, left.1 + 4.0 + 8.0 * f64::from(far)));
    let inside = |x: f64| x >= layout.chart.x0 && x + width <= layout.chart.right() + 2.0 * MARGIN;
    let free = |row: usize, x: f64| taken[row].iter().all(|&(from, to)| to <= x + 1.0 || x + width - 1.0 <= from);
    let found = beside.into_iter().chain(far_left).chain(far_right).find(|&(row, x)| inside(x) && free(row, x));
    if let Some((row, x)) = found {
        taken[row].push((x, x + width));
        svg.text((x, layout.rows[row].middle() + 3.5), "small bold", &words);
    }
}

/// The groups at the side: a tick and the place for each member.
pub fn brackets(page: &mut Page, scene: &Scene, layout: &Layout) {
    for (group, lane) in scene.groups.iter().zip(&layout.brackets) {
        let x = MARGIN + (*lane as f64 + 1.0) * layout.bracket_lane - 10.0;
        page.svg.open("g", &[("class", &"group")]);
        page.svg.title(&group.title);
        bracket(&mut page.svg, layout, group, x);
        page.svg.close();
    }
}

fn bracket(svg: &mut Svg, layout: &Layout, group: &Bracket, x: f64) {
    let members: Vec<(usize, f64, f64)> = (group.places.iter().enumerate())
        .filter_map(|(place, row)| layout.rows.get((*row)?).map(|row| (place, row.y, row.middle())))
        .collect();
    let least = |a: f64, b: f64| a.min(b);
    let top = members.iter().map(|member| member.2).fold(f64::INFINITY, least);
    let bottom = members.iter().map(|member| member.2).fold(0.0, f64::max);
    if members.is_empty() {
        return;
    }
    svg.path(&format!("M{} {}V{}", N(x), N(top - 6.0), N(bottom + 6.0)), "bracket");
    for (place, _, y) in &members {
        svg.path(&format!("M{} {y}H{}", N(x), N(x + 6.0), y = N(*y)), "bracket");
        svg.line((x + 6.0, *y), (layout.columns[0] - 2.0, *y), "rule");
        let style = "small end";
        let drop = if *y == top { 9.0 } else { 3.5 };
        svg.text((x - 3.0, y + drop), style, &place.to_string());
    }
    svg.text((x - 3.0, top - 1.0), "small bold end", &format!("g{}", group.number));
}
