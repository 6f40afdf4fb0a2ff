//! A page that is filled from the top: notes, lines of a sheet, and at last its frame.

use crate::forms::{Fault, lines, shown};
use crate::layout::MARGIN;
use crate::style::{SHEET, wrapped};
use crate::svg::{N, Svg, escaped};

pub struct Page {
    pub svg: Svg,
    pub y: f64,
    pub width: f64,
}

impl Page {
    pub fn new(width: f64) -> Page {
        Page { svg: Svg::default(), y: MARGIN, width }
    }

    pub fn headline(&mut self, words: &str) {
        for line in wrapped(words, 14.0, self.width - 2.0 * MARGIN) {
            self.svg.text((MARGIN, self.y + 12.0), "big", &line);
            self.y += 19.0;
        }
        self.y += 5.0;
    }

    /// A box with a bold first line and text under it.
    pub fn note(&mut self, class: &'static str, head: &str, body: &[String]) {
        let room = self.width - 2.0 * MARGIN - 16.0;
        let head = wrapped(head, 12.0, room);
        let body: Vec<String> = body.iter().flat_map(|words| wrapped(words, 11.0, room)).collect();
        let height = 15.0 * (head.len() + body.len()) as f64 + 10.0;
        self.svg.open("g", &[("class", &class)]);
        self.svg.rect((MARGIN, self.y), (self.width - 2.0 * MARGIN, height), "box", "#fff6dd");
        for (at, line) in head.iter().chain(&body).enumerate() {
            let style = if at < head.len() { "bold" } else { "plain" };
            self.svg.text((MARGIN + 8.0, self.y + 16.0 + 15.0 * at as f64), style, line);
        }
        self.svg.close();
        self.y += height + 8.0;
    }

    /// The line that a fault speaks of, with the lines around it.
    pub fn excerpt(&mut self, sheet: &[u8], fault: &Fault) {
        let (lines, _) = lines(sheet);
        let first = fault.line.saturating_sub(4);
        let most = ((self.width - 2.0 * MARGIN - 80.0) / 7.0) as usize;
        self.svg.open("g", &[("class", &"excerpt")]);
        for (at, line) in lines.iter().enumerate().skip(first).take(7) {
            let here = at + 1 == fault.line;
            if here {
                self.svg.rect((MARGIN, self.y), (self.width - 2.0 * MARGIN, 15.0), "here", "#ffe27a");
                self.svg.text((MARGIN + 4.0, self.y + 11.5), "bold", "▶");
            }
            let class = if here { "mono bold end offending" } else { "mono grey end" };
            self.svg.text((MARGIN + 52.0, self.y + 11.5), class, &(at + 1).to_string());
            let class = if here { "mono bold" } else { "mono" };
            self.svg.text((MARGIN + 64.0, self.y + 11.5), class, &shown(line, most));
            self.y += 15.0;
        }
        self.svg.text((MARGIN + 64.0, self.y + 10.0), "small grey", "The job sheet's lines; → is a tab.");
        self.svg.close();
        self.y += 22.0;
    }

    /// The whole picture, with its name and description.
    pub fn finish(self, title: &str, describe: &str, definitions: &str) -> String {
        let (width, height) = (N(self.width), N(self.y + MARGIN));
        let body = self.svg.finish();
        let (title, describe) = (escaped(title), escaped(describe));
        format!(
            "<?xml version=\"1.0\" encoding=\"UTF-8\"?>\n\
             <svg xmlns=\"http://www.w3.org/2000/svg\" class=\"drawing\" width=\"{width}\" height=\"{height}\" \
             viewBox=\"0 0 {width} {height}\" xml:lang=\"en\" role=\"img\" \
             aria-labelledby=\"drawing-title drawing-desc\">\n\
             <title id=\"drawing-title\">{title}</title>\n<desc id=\"drawing-desc\">{describe}</desc>\n\
             {SHEET}{definitions}<rect width=\"{width}\" height=\"{height}\" fill=\"#ffffff\"/>\n{body}</svg>\n"
        )
    }
}
