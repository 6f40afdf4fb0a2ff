//! The whole picture, from top to bottom.

use crate::Drawing;
use crate::forms::{Fault, counted};
use crate::head::{MOST_BLOCKS, bands, blocks, ticks};
use crate::job::Job;
use crate::layout::{Layout, layout};
use crate::legend::{hatches, legend};
use crate::lines::{brackets, cuts, links};
use crate::page::Page;
use crate::pair::{Pair, pair};
use crate::registers::Answer;
use crate::rows;
use crate::scene::{Scene, of_job, of_registers};
use crate::verdict::{Note, Verdict, verdict};

pub fn draw(sheet: &[u8], job: &Job, fault: Option<Fault>, answer: &Answer) -> Drawing {
    let pair = if answer.refused.is_some() { Pair::default() } else { pair(job, answer) };
    let mut verdict = verdict(job, fault.as_ref(), answer, &pair.odd);
    let fault = fault.filter(|_| verdict.line_known);
    let scene = match answer.vregs.is_empty() && !(answer.whole && answer.refused.is_none()) {
        true => of_job(job, fault.as_ref(), &verdict.sets),
        false => of_registers(job, answer, &pair),
    };
    verdict.remarks.extend(left_out(job, &scene));
    let layout = layout(&scene, insts(job, &scene));
    let mut page = Page::new(layout.width);
    let title = headline(job, &scene, &verdict, fault.as_ref());
    page.headline(&title);
    notes(&mut page, &verdict);
    if let Some(fault) = &fault {
        page.excerpt(sheet, fault);
    }
    chart(&mut page, job, &scene, layout);
    let describe = describe(&scene, &verdict);
    let svg = page.finish(&title, &describe, &hatches(&scene));
    Drawing { svg, remarks: verdict.remarks.iter().map(said).collect() }
}

fn said(note: &Note) -> String {
    format!("{}: {}", note.head, note.body.join(" "))
}

fn left_out(job: &Job, scene: &Scene) -> Option<Note> {
    let out = &scene.left_out;
    let blocks = job.blocks.len().saturating_sub(MOST_BLOCKS);
    let parts = [(out.rows, "row"), (out.bars, "piece"), (out.marks, "use"), (out.groups, "group"), (blocks, "block")];
    let parts = parts.iter().filter(|(many, _)| *many > 0).map(|(many, noun)| counted(*many, noun));
    let words = parts.collect::<Vec<_>>().join(", ");
    let note = Note { head: "Not all is drawn".into(), body: vec![format!("Left out: {words}.")] };
    (!words.is_empty()).then_some(note)
}

/// The instructions of the job; without blocks, as many as the pieces need.
fn insts(job: &Job, scene: &Scene) -> u64 {
    let last = scene.rows.iter().flat_map(|row| &row.bars).map(|bar| u64::from(bar.to).div_ceil(4)).max();
    match job.insts() {
        0 => last.unwrap_or(0),
        insts => insts,
    }
}

fn headline(job: &Job, scene: &Scene, verdict: &Verdict, fault: Option<&Fault>) -> String {
    let insts = format!("{} in {}", counted(job.insts() as usize, "instruction"), counted(job.blocks.len(), "block"));
    let rows = scene.rows.len() + scene.left_out.rows;
    let groups = scene.groups.len() + scene.left_out.groups;
    let rows = match scene.registers {
        true => format!("{}, {}", counted(rows, "register"), counted(groups, "group")),
        false => counted(rows, "segment"),
    };
    let unread = fault.filter(|fault| fault.number == 1).map(|fault| format!(" before line {}", fault.line));
    let unread = unread.unwrap_or_default();
    match &verdict.refusal {
        Some(note) if job.blocks.is_empty() => format!("{}: a job sheet that can't be drawn", note.head),
        Some(note) => format!("{}: a job of {insts}, {rows}{unread}", note.head),
        None => format!("{insts}: {rows}{unread}"),
    }
}

fn describe(scene: &Scene, verdict: &Verdict) -> String {
    let marks: usize = scene.rows.iter().flat_map(|row| &row.bars).map(|bar| bar.marks.len()).sum();
    let kind = if scene.registers { "virtual register" } else { "segment" };
    let rows = counted(scene.rows.len(), "row");
    let uses = counted(marks, "use");
    let lines = format!("{}, {}", counted(scene.cuts.len(), "cut"), counted(scene.links.len(), "turned use"));
    let what = format!("{rows}, one for each {kind}, over the instructions; {uses}, {lines}.");
    let notes = verdict.refusal.iter().chain(&verdict.remarks).map(said);
    notes.fold(what, |all, note| format!("{all} {note}"))
}

fn notes(page: &mut Page, verdict: &Verdict) {
    if let Some(note) = &verdict.refusal {
        page.note("refusal", &note.head, &note.body);
    }
    for note in &verdict.remarks {
        page.note("remark", &note.head, &note.body);
    }
}

fn chart(page: &mut Page, job: &Job, scene: &Scene, mut layout: Layout) {
    if layout.chart.insts > 0 {
        let bands = bands(&layout.chart, job);
        blocks(page, job, &bands);
        rows::heads(page, scene, &layout);
        ticks(page, &layout.chart);
        let height = place(&mut layout, page.y);
        rows::ground(page, &layout, &bands, height);
        fill(page, job, scene, &layout);
        page.y += height;
        if scene.rows.len() > 20 {
            ticks(page, &layout.chart);
        }
        legend(page, job, scene, layout.chart.roomy());
    }
}

/// Puts the rows one under the other, and gives their height.
fn place(layout: &mut Layout, top: f64) -> f64 {
    let mut y = top;
    for row in &mut layout.rows {
        row.y = y;
        y += row.height;
    }
    (y - top).max(12.0)
}

fn fill(page: &mut Page, job: &Job, scene: &Scene, layout: &Layout) {
    for at in 0..scene.rows.len() {
        rows::row(page, job, scene, layout, at);
    }
    links(page, scene, layout);
    cuts(page, scene, layout);
    brackets(page, scene, layout);
    for (row, placed) in scene.rows.iter().zip(&layout.rows) {
        rows::marks(page, row, placed, layout.chart.roomy());
    }
}
