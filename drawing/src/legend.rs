//! The legend: classes, groups, and what shapes and lines stand for.

use crate::job::Job;
use crate::layout::MARGIN;
use crate::marks;
use crate::page::Page;
use crate::rows::shape;
use crate::scene::{Bracket, Scene};
use crate::style::{colour, text_width};
use crate::svg::{N, Svg};
use crate::words::{KINDS, class_words};

enum Icon {
    Class(u32),
    Kind(u32),
    Bar(u32, &'static str),
    Line(&'static str),
    Shade,
    None,
}

type Item = (Icon, String);

pub fn legend(page: &mut Page, job: &Job, scene: &Scene, roomy: bool) {
    let classes = (0..job.classes.len()).map(|class| (Icon::Class(class as u32), class_words(job, class)));
    section(page, "Classes (a row has its class's colour)", &classes.take(64).collect::<Vec<_>>());
    section(page, "Uses, at their instruction (hollow: a use; full: a definition)", &uses(roomy));
    section(page, "Pieces and lines", &pieces(scene.registers));
    let groups: Vec<Item> = scene.groups.iter().map(|group| (Icon::None, places(scene, group))).collect();
    section(page, "Groups (a bracket at the left; – for an empty place)", &groups);
}

fn uses(roomy: bool) -> Vec<Item> {
    let own = |kind: usize| match kind {
        3 => ": a turned use",
        2 => " (tied)",
        _ => "",
    };
    let mark = |(kind, name): (usize, &&str)| (Icon::Kind(kind as u32), format!("{kind} {name}{}", own(kind)));
    let mut items: Vec<Item> = KINDS.iter().enumerate().map(mark).collect();
    if roomy {
        let words = ["c1 class 1", "c1·0 class 1, place 0", "p2 physical register 2", "#3 block parameter 3"];
        items.extend(words.map(|word| (Icon::None, word.to_string())));
    }
    items
}

fn pieces(registers: bool) -> Vec<Item> {
    let item = |icon: Icon, words: &str| (icon, words.to_string());
    let mut items = vec![
        item(Icon::Bar(0, "own"), if registers { "own piece" } else { "segment" }),
        item(Icon::Bar(1, "own"), "live-in: notched, open at the left"),
        item(Icon::Bar(2, "own"), "live-out: pointed, open at the right"),
        item(Icon::Bar(4, "own"), "fixed hint: line along the foot"),
        item(Icon::Bar(8, "own"), "fixed def: thick left end"),
        item(Icon::Shade, "block: the darker, the more often run"),
    ];
    if registers {
        items.insert(1, item(Icon::Bar(0, "conflict"), "conflict piece (hatched)"));
        items.push(item(Icon::Line("cutline"), "cut before the instruction named"));
        items.push(item(Icon::Line("gapline"), "cut somewhere in a gap"));
        items.push(item(Icon::Line("linkline"), "from a turned use to its conflict piece"));
    }
    items
}

fn places(scene: &Scene, group: &Bracket) -> String {
    let name = |row: &Option<usize>| {
        let cells = row.and_then(|row| scene.rows.get(row)).map(|row| &row.cells);
        cells.and_then(|cells| cells.first().cloned()).unwrap_or("–".into())
    };
    let places = group.places.iter().enumerate().map(|(place, row)| format!("place {place} {}", name(row)));
    format!("group {}: {}", group.number, places.collect::<Vec<_>>().join(", "))
}

/// A headline and its items in as many columns as there is room for.
fn section(page: &mut Page, head: &str, items: &[Item]) {
    if items.is_empty() {
        return;
    }
    page.y += 8.0;
    page.svg.text((MARGIN, page.y + 11.0), "bold", head);
    page.y += 18.0;
    let room = page.width - 2.0 * MARGIN;
    let widest = items.iter().map(|item| text_width(&item.1, 11.0)).fold(0.0, f64::max) + 44.0;
    let columns = ((room / widest) as usize).clamp(1, items.len());
    let lines = items.len().div_ceil(columns);
    page.svg.open("g", &[("class", &"legend")]);
    for (at, (icon, words)) in items.iter().enumerate() {
        let x = MARGIN + 6.0 + (at / lines) as f64 * widest;
        let y = page.y + (at % lines) as f64 * 17.0;
        draw(&mut page.svg, icon, (x, y));
        let indent = if matches!(icon, Icon::None) { 0.0 } else { 28.0 };
        page.svg.text((x + indent, y + 11.0), "plain", words);
    }
    page.svg.close();
    page.y += lines as f64 * 17.0;
}

fn draw(svg: &mut Svg, icon: &Icon, (x, y): (f64, f64)) {
    match icon {
        Icon::Class(class) => svg.rect((x, y + 1.0), (20.0, 11.0), "edge", &colour(*class)),
        Icon::Kind(kind) => marks::draw(svg, *kind, (x + 10.0, y + 7.0)),
        Icon::Bar(flags, "conflict") => shape(svg, (x, x + 20.0), (y + 1.0, 12.0), *flags, "url(#hatch-legend)"),
        Icon::Bar(flags, _) => shape(svg, (x, x + 20.0), (y + 1.0, 12.0), *flags, "#c8c8c8"),
        Icon::Line("cutline") => svg.line((x + 10.0, y), (x + 10.0, y + 14.0), "cutline"),
        Icon::Line(class) => svg.path(&format!("M{} {}H{}", N(x), N(y + 7.0), N(x + 20.0)), class),
        Icon::Shade => shades(svg, (x, y)),
        Icon::None => {}
    }
}

fn shades(svg: &mut Svg, (x, y): (f64, f64)) {
    for (at, part) in [0.0, 0.5, 1.0].iter().enumerate() {
        let fill = crate::style::grey(*part);
        svg.rect((x + 7.0 * at as f64, y + 1.0), (7.0, 12.0), "edge", &fill);
    }
}

/// The hatching of each class that a conflict piece has, and the legend's.
pub fn hatches(scene: &Scene) -> String {
    let rows = scene.rows.iter().filter(|row| row.bars.iter().any(|bar| bar.conflict));
    let mut classes: Vec<u32> = rows.filter_map(|row| row.class).collect();
    classes.sort_unstable();
    classes.dedup();
    let mut names: Vec<(String, String)> = classes.iter().map(|&class| (class.to_string(), colour(class))).collect();
    names.push(("legend".into(), "#888888".into()));
    let patterns = names.iter().map(|(name, fill)| pattern(name, fill));
    format!("<defs>\n{}</defs>\n", patterns.collect::<String>())
}

fn pattern(name: &str, fill: &str) -> String {
    format!(
        "<pattern id=\"hatch-{name}\" width=\"4.6\" height=\"4.6\" patternUnits=\"userSpaceOnUse\" \
         patternTransform=\"rotate(45)\"><rect width=\"4.6\" height=\"4.6\" fill=\"#ffffff\"/>\
         <rect width=\"2.3\" height=\"4.6\" fill=\"{fill}\"/></pattern>\n"
    )
}
