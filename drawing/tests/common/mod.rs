//! Sheet pairs of the repository, a check of XML, and numbers that look like chance but are the same each time.
#![allow(dead_code)]

use std::fs;
use std::path::{Path, PathBuf};

pub struct Pair {
    pub name: String,
    pub job: Vec<u8>,
    pub out: Vec<u8>,
}

pub fn docs() -> PathBuf {
    Path::new(env!("CARGO_MANIFEST_DIR")).join("../docs")
}

/// Every pair in docs/samples, its folder of the second form and docs/pictures, and every pair of a `job` and a
/// `registers` block in docs/SHEETS.md.
pub fn pairs() -> Vec<Pair> {
    let mut pairs = folder(&docs().join("samples"));
    pairs.extend(folder(&docs().join("samples/second")));
    pairs.extend(folder(&docs().join("pictures")));
    pairs.extend(blocks(&fs::read_to_string(docs().join("SHEETS.md")).unwrap()));
    pairs
}

/// The pairs NAME.job and NAME.out of a folder, by name.
pub fn folder(folder: &Path) -> Vec<Pair> {
    let files = fs::read_dir(folder).unwrap().map(|entry| entry.unwrap().path());
    let mut jobs: Vec<PathBuf> = files.filter(|path| path.extension().is_some_and(|end| end == "job")).collect();
    jobs.sort();
    let pair = |path: PathBuf| Pair {
        name: path.file_stem().unwrap().to_string_lossy().into_owned(),
        job: fs::read(&path).unwrap(),
        out: fs::read(path.with_extension("out")).unwrap(),
    };
    jobs.into_iter().map(pair).collect()
}

fn blocks(text: &str) -> Vec<Pair> {
    let (mut pairs, mut job) = (Vec::new(), Vec::new());
    for part in text.split("\n```") {
        let Some((kind, body)) = part.split_once('\n').filter(|(kind, _)| !kind.is_empty()) else { continue };
        let lacks_end = kind.contains("no-last-line-feed");
        let body = if lacks_end { body.to_string() } else { format!("{body}\n") };
        match kind.split(' ').next() {
            Some("job") => job = body.into_bytes(),
            Some("registers") => {
                let name = format!("SHEETS.md, pair {}", pairs.len());
                pairs.push(Pair { name, job: job.clone(), out: body.into_bytes() });
            }
            _ => {}
        }
    }
    pairs
}

/// A sheet of the first form, whose blocks, values and segments are sound, in the second.
pub fn second(sheet: &[u8]) -> Vec<u8> {
    let (mut first, mut leaders) = (0, Vec::new());
    let mut text = "form\t2\n".to_string();
    for line in std::str::from_utf8(sheet).unwrap().lines() {
        let fields: Vec<&str> = line.split('\t').collect();
        let number = |at: usize| fields[at].parse::<usize>().unwrap();
        text += line;
        match fields[0] {
            "block" => text += &format!("\t{first}"),
            "seg" => text += &format!("\t{}", leaders[number(1)]),
            "value" => leaders.push(number(2)),
            _ => {}
        }
        first += if fields[0] == "block" { number(1) } else { 0 };
        text += "\n";
    }
    text.into_bytes()
}

/// The number of the line that a picture shows to be at fault.
pub fn offending(svg: &str) -> Option<&str> {
    let (_, rest) = svg.split_once("class=\"mono bold end offending\">")?;
    rest.split_once('<').map(|(number, _)| number)
}

/// How many lines of a sheet have a word.
pub fn lines_of(sheet: &[u8], word: &str) -> usize {
    let text = String::from_utf8_lossy(sheet);
    text.lines().filter(|line| line.split('\t').next() == Some(word)).count()
}

/// What is wrong with a text as XML: tags balanced, one root, attributes quoted, text escaped.
pub fn xml_fault(text: &str) -> Option<String> {
    let body = text.strip_prefix("<?xml version=\"1.0\" encoding=\"UTF-8\"?>\n")?;
    let mut open: Vec<&str> = Vec::new();
    let (mut rest, mut roots) = (body, 0);
    while let Some(at) = rest.find('<') {
        let (words, tag) = rest.split_at(at);
        let Some(end) = tag.find('>') else { return Some("a tag without an end".into()) };
        let inner = &tag[1..end];
        rest = &tag[end + 1..];
        if text_fault(words) || (open.is_empty() && !words.trim().is_empty()) {
            return Some(format!("bad text {words:?}"));
        }
        if let Some(name) = inner.strip_prefix('/') {
            if open.pop() != Some(name) {
                return Some(format!("closes {name}"));
            }
            continue;
        }
        let name = inner.split([' ', '/']).next().unwrap_or_default();
        roots += usize::from(open.is_empty());
        if !attributes_are_sound(inner[name.len()..].trim_end_matches('/')) {
            return Some(format!("bad attributes {inner:?}"));
        }
        if !inner.ends_with('/') {
            open.push(name);
        }
    }
    (!open.is_empty() || roots != 1 || !rest.trim().is_empty()).then(|| format!("left open: {open:?}"))
}

fn text_fault(words: &str) -> bool {
    let known = ["&amp;", "&lt;", "&gt;", "&quot;", "&apos;"];
    let entity = |(at, _)| known.iter().any(|name| words[at..].starts_with(name));
    let control = |letter: char| letter < ' ' && letter != '\n';
    words.contains(['<', '>']) || !words.match_indices('&').all(entity) || words.contains(control)
}

fn attributes_are_sound(mut rest: &str) -> bool {
    while let Some(more) = rest.strip_prefix(' ') {
        let Some((name, value)) = more.split_once("=\"") else { return false };
        let Some((value, left)) = value.split_once('"') else { return false };
        if name.is_empty() || name.contains([' ', '"']) || text_fault(value) {
            return false;
        }
        rest = left;
    }
    rest.is_empty()
}

/// xorshift64*
pub struct Dice(pub u64);

impl Dice {
    pub fn roll(&mut self) -> u64 {
        self.0 ^= self.0 >> 12;
        self.0 ^= self.0 << 25;
        self.0 ^= self.0 >> 27;
        self.0.wrapping_mul(0x2545_f491_4f6c_dd1d)
    }

    pub fn below(&mut self, most: usize) -> usize {
        (self.roll() >> 11) as usize % most.max(1)
    }
}
