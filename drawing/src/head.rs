//! The top of the chart: blocks as bands, shaded by frequency, and the numbers of the instructions.

use crate::forms::counted;
use crate::job::{Block, Job};
use crate::layout::Chart;
use crate::page::Page;
use crate::style::{grey, text_width};
use crate::svg::{N, Svg};
use crate::words::{exact, readable, written_words};

/// More blocks than a job may have; still more are left out.
pub const MOST_BLOCKS: usize = 4096;

/// A block's place and shade.
pub struct Band {
    pub first: u64,
    pub left: f64,
    pub right: f64,
    pub shade: String,
}

/// Where each block lies, darker where it is run more often.
pub fn bands(chart: &Chart, job: &Job) -> Vec<Band> {
    let levels: Vec<Option<f64>> = job.blocks.iter().map(level).collect();
    let least = levels.iter().flatten().copied().fold(f64::INFINITY, f64::min);
    let most = levels.iter().flatten().copied().fold(f64::NEG_INFINITY, f64::max);
    let band = |((block, level), first): ((&Block, &Option<f64>), u64)| {
        let next = first + u64::from(block.insts);
        let part = match level {
            None => 0.0,
            Some(level) if most > least => 0.15 + 0.85 * (level - least) / (most - least),
            Some(_) => 0.4,
        };
        let (left, right) = (chart.x(4.0 * first as f64), chart.x(4.0 * next as f64));
        Band { first, left, right, shade: grey(part) }
    };
    job.blocks.iter().zip(&levels).zip(job.firsts()).take(MOST_BLOCKS).map(band).collect()
}

/// Frequencies are shaded by their powers of two; one that is 0 or no frequency has the lightest shade.
fn level(block: &Block) -> Option<f64> {
    let frequency = f64::from(block.frequency);
    (frequency.is_finite() && frequency > 0.0).then(|| frequency.log2())
}

/// The band of blocks. The names are written along the block where it is wide enough, else upright.
pub fn blocks(page: &mut Page, job: &Job, bands: &[Band]) {
    let fits = |(at, band): (usize, &Band)| along(at, &job.blocks[at], band.right - band.left).is_some();
    let all_along = bands.iter().enumerate().all(fits);
    let height = if all_along { 34.0 } else { 66.0 };
    for (at, band) in bands.iter().enumerate() {
        let block = &job.blocks[at];
        page.svg.open("g", &[("class", &"block")]);
        page.svg.title(&block_title(at, block, band.first));
        page.svg.rect((band.left, page.y), (band.right - band.left, height), "edge", &band.shade);
        block_name(&mut page.svg, (at, block), band, (page.y, height));
        page.svg.close();
    }
    page.y += height;
}

fn block_title(at: usize, block: &Block, first: u64) -> String {
    let many = counted(block.insts as usize, "instruction");
    let written = written_words("first instruction", block.written, Some(first));
    let more = format!("frequency {}{written}; line {}", exact(block.frequency), block.line);
    match u64::from(block.insts) {
        0 => format!("block {at}: empty, {more}"),
        insts => format!("block {at}: {many}, {first} to {}, {more}", first + insts - 1),
    }
}

/// The two lines of a block's name that fit its width.
fn along(at: usize, block: &Block, width: f64) -> Option<[String; 2]> {
    let frequency = readable(block.frequency);
    let long = [format!("block {at}"), format!("frequency {frequency}")];
    let less = [format!("block {at}"), format!("× {frequency}")];
    let fits = |lines: &[String; 2]| lines.iter().all(|line| text_width(line, 11.0) <= width - 4.0);
    [long, less].into_iter().find(fits)
}

fn block_name(svg: &mut Svg, (at, block): (usize, &Block), band: &Band, (y, height): (f64, f64)) {
    let width = band.right - band.left;
    let middle = (band.left + band.right) / 2.0;
    if let Some([name, frequency]) = along(at, block, width) {
        svg.text((middle, y + height / 2.0 - 3.0), "mid bold", &name);
        svg.text((middle, y + height / 2.0 + 11.0), "mid", &frequency);
    } else if width >= 12.0 {
        let words = format!("b{at} × {}", readable(block.frequency));
        let turn = format!("translate({} {}) rotate(-90)", N(middle + 3.5), N(y + height - 4.0));
        svg.words("text", &[("class", &"small"), ("transform", &turn)], &words);
    }
}

/// The numbers of the instructions, thinned so that they never touch.
pub fn ticks(page: &mut Page, chart: &Chart) {
    let every = every(chart);
    let y = page.y + 12.0;
    let mut inst = 0;
    while inst < chart.insts {
        let (left, middle) = (chart.x(4.0 * inst as f64), chart.x(4.0 * inst as f64 + 2.0));
        page.svg.open("g", &[("class", &"tick")]);
        page.svg.title(&format!("instruction {inst}: points {} to {}", 4 * inst, 4 * inst + 2));
        page.svg.text((middle, y), "small mid", &inst.to_string());
        page.svg.line((left, page.y), (left, page.y + 4.0), "edge");
        page.svg.close();
        inst += every;
    }
    page.y += 17.0;
}

/// The least of 1, 2, 5, 10, 20 and so on that leaves room for the greatest number.
pub fn every(chart: &Chart) -> u64 {
    let room = text_width(&chart.insts.to_string(), 9.0) + 4.0;
    let mut tens = 1u64;
    loop {
        for part in [1, 2, 5] {
            let every = tens.saturating_mul(part);
            if every as f64 * chart.step >= room || every > chart.insts {
                return every;
            }
        }
        tens = tens.saturating_mul(10);
    }
}
