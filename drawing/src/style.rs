//! Colours, fonts and the widths that text is given.

/// Seven colours of Okabe and Ito, which colour-blind readers tell apart, and a grey.
const HUES: [[u8; 3]; 8] = [
    [0x00, 0x72, 0xb2],
    [0xe6, 0x9f, 0x00],
    [0x00, 0x9e, 0x73],
    [0xcc, 0x79, 0xa7],
    [0x56, 0xb4, 0xe9],
    [0xd5, 0x5e, 0x00],
    [0xf0, 0xe4, 0x42],
    [0x8c, 0x8c, 0x8c],
];

/// The colour of a class. From class 8 on the colours come again, lighter or darker.
pub fn colour(class: u32) -> String {
    let hue = HUES[class as usize % HUES.len()];
    let (with, part) = [(255, 0.0), (255, 0.55), (0, 0.35), (255, 0.78)][class as usize / HUES.len() % 4];
    let [red, green, blue] = hue.map(|from| mixed(from, with, part));
    format!("#{red:02x}{green:02x}{blue:02x}")
}

fn mixed(from: u8, to: u8, part: f64) -> u8 {
    (f64::from(from) + (f64::from(to) - f64::from(from)) * part).round() as u8
}

/// The grey of a block, from light to dark as the part goes from 0 to 1.
pub fn grey(part: f64) -> String {
    let level = mixed(0xf8, 0xa8, part);
    format!("#{level:02x}{level:02x}{level:02x}")
}

/// Room for text of a size, on the wide side, since fonts differ.
pub fn text_width(text: &str, size: f64) -> f64 {
    text.chars().count() as f64 * size * 0.62
}

/// Text broken into lines of a width, at blanks, and within a word that is too long.
pub fn wrapped(text: &str, size: f64, width: f64) -> Vec<String> {
    let most = ((width / (size * 0.6)) as usize).max(20);
    let mut lines = vec![String::new()];
    for word in text.split(' ').flat_map(|word| chunks(word, most)) {
        let last = lines.last_mut().map_or(0, |line| line.chars().count());
        match lines.last_mut() {
            Some(line) if last == 0 => line.push_str(&word),
            Some(line) if last + 1 + word.chars().count() <= most => *line += &format!(" {word}"),
            _ => lines.push(word),
        }
    }
    lines
}

fn chunks(word: &str, most: usize) -> Vec<String> {
    let letters: Vec<char> = word.chars().collect();
    letters.chunks(most).map(|part| part.iter().collect()).collect()
}

pub const SHEET: &str = "<style>
.drawing text{font-family:'DejaVu Sans',Verdana,Arial,sans-serif;font-size:11px;fill:#111}
.drawing .big{font-size:14px;font-weight:bold}
.drawing .bold{font-weight:bold}
.drawing .small{font-size:9px}
.drawing .grey{fill:#555}
.drawing .end{text-anchor:end}
.drawing .mid{text-anchor:middle}
.drawing .mono{font-family:'DejaVu Sans Mono',Menlo,Consolas,monospace;white-space:pre}
.drawing .grid{stroke:#000;stroke-opacity:.09;stroke-width:1}
.drawing .edge{stroke:#666;stroke-width:1}
.drawing .rule{stroke:#999;stroke-width:.7}
.drawing .outline{fill:none;stroke:#222;stroke-width:1.2}
.drawing .hint{stroke:#000;stroke-width:2.4;fill:none}
.drawing .halo{fill:#fff;stroke:#fff;stroke-width:3.4;stroke-linejoin:round}
.drawing .hollow{fill:#fff;stroke:#000;stroke-width:1.4}
.drawing .full{fill:#000;stroke:#000;stroke-width:1.2}
.drawing .stroke{fill:none;stroke:#000;stroke-width:1.9}
.drawing .ring{fill:none;stroke:#c00000;stroke-width:2.2}
.drawing .cutline{stroke:#000;stroke-width:2.2}
.drawing .cutfar{stroke:#000;stroke-width:.8}
.drawing .gapline{stroke:#000;stroke-width:1.4;stroke-dasharray:1.5 2.5;fill:none}
.drawing .linkline{stroke:#000;stroke-width:1.1;stroke-dasharray:4 2.5;fill:none}
.drawing .bracket{stroke:#222;stroke-width:1.5;fill:none}
.drawing .box{stroke:#c00000;stroke-width:1.4}
</style>
";
