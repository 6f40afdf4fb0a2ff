//! Writes elements and escaped text. Tags are closed in the order they were opened.

use std::fmt::{Display, Formatter, Result, Write};

/// A length or coordinate, to a tenth of a unit.
pub struct N(pub f64);

impl Display for N {
    fn fmt(&self, to: &mut Formatter) -> Result {
        let tenths = (self.0 * 10.0).round();
        let tenths = if tenths == 0.0 { 0.0 } else { tenths };
        write!(to, "{}", tenths / 10.0)
    }
}

pub type Attributes<'a> = &'a [(&'a str, &'a dyn Display)];

#[derive(Default)]
pub struct Svg {
    text: String,
    open: Vec<&'static str>,
}

impl Svg {
    /// An element with content, until `close`.
    pub fn open(&mut self, tag: &'static str, attributes: Attributes) {
        self.start(tag, attributes);
        self.text.push_str(">\n");
        self.open.push(tag);
    }

    pub fn close(&mut self) {
        if let Some(tag) = self.open.pop() {
            let _ = writeln!(self.text, "</{tag}>");
        }
    }

    /// An element without content.
    pub fn leaf(&mut self, tag: &str, attributes: Attributes) {
        self.start(tag, attributes);
        self.text.push_str("/>\n");
    }

    /// An element that holds text alone.
    pub fn words(&mut self, tag: &str, attributes: Attributes, words: &str) {
        self.start(tag, attributes);
        let _ = writeln!(self.text, ">{}</{tag}>", escaped(words));
    }

    pub fn title(&mut self, words: &str) {
        self.words("title", &[], words);
    }

    /// Text at a place, in a style class.
    pub fn text(&mut self, (x, y): (f64, f64), class: &str, words: &str) {
        self.words("text", &[("x", &N(x)), ("y", &N(y)), ("class", &class)], words);
    }

    pub fn line(&mut self, (x1, y1): (f64, f64), (x2, y2): (f64, f64), class: &str) {
        let (x1, y1, x2, y2) = (N(x1), N(y1), N(x2), N(y2));
        self.leaf("line", &[("x1", &x1), ("y1", &y1), ("x2", &x2), ("y2", &y2), ("class", &class)]);
    }

    /// A rectangle of a fill colour.
    pub fn rect(&mut self, (x, y): (f64, f64), (width, height): (f64, f64), class: &str, fill: &str) {
        let (x, y, width, height) = (N(x), N(y), N(width), N(height));
        let size: [(&str, &dyn Display); 4] = [("x", &x), ("y", &y), ("width", &width), ("height", &height)];
        let style: [(&str, &dyn Display); 2] = [("class", &class), ("fill", &fill)];
        self.leaf("rect", &[&size[..], &style[..]].concat());
    }

    pub fn path(&mut self, d: &str, class: &str) {
        self.leaf("path", &[("d", &d), ("class", &class)]);
    }

    pub fn finish(mut self) -> String {
        while !self.open.is_empty() {
            self.close();
        }
        self.text
    }

    fn start(&mut self, tag: &str, attributes: Attributes) {
        let _ = write!(self.text, "<{tag}");
        for (name, value) in attributes {
            let _ = write!(self.text, " {name}=\"{}\"", escaped(&value.to_string()));
        }
    }
}

/// Text with the five marks of XML escaped, and what XML has no character for replaced.
pub fn escaped(text: &str) -> String {
    let mut out = String::with_capacity(text.len());
    for letter in text.chars() {
        match letter {
            '&' => out.push_str("&amp;"),
            '<' => out.push_str("&lt;"),
            '>' => out.push_str("&gt;"),
            '"' => out.push_str("&quot;"),
            '\'' => out.push_str("&apos;"),
            '\u{0}'..='\u{1f}' | '\u{fffe}' | '\u{ffff}' => out.push('\u{fffd}'),
            _ => out.push(letter),
        }
    }
    out
}
