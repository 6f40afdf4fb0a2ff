//! `compare_order ORDER PROFILE SEED COUNT`: runs ORDER on each pair of each three sheets near one another (make::three)
//! of the seeds from SEED on, as `ORDER FIRST SECOND`, and on the turned pair, and holds what it writes to the second
//! reading of the order, byte for byte. Of what it wrote itself: turning the pair has to turn the answer, and of three
//! sheets of which none is refused, the answers to two pairs have to give that to the third, where they do. Every exit
//! status has to be 0, and standard error empty.

use std::collections::BTreeMap;
use std::fs;
use std::io;
use std::path::PathBuf;
use std::process::exit;
use std::thread;

use oracle::child::run_on;
use oracle::make::three;
use oracle::order::{apart, order, shelved};

/// The pairs of three sheets; each is turned too.
const PAIRS: [(usize, usize); 3] = [(0, 1), (1, 2), (0, 2)];
/// Which three of the pairs are tried: x to y, y to z, x to z.
const WAYS: [[usize; 3]; 6] = [
    [0, 1, 2],
    [0, 2, 1],
    [1, 0, 2],
    [1, 2, 0],
    [2, 0, 1],
    [2, 1, 0],
];

#[derive(Default)]
struct Counts {
    /// Pairs, unturned, by the second reading's answer; of refusals by which sheet is refused.
    answers: BTreeMap<String, u64>,
    pairs: u64,
    /// Pairs of which both sheets pass.
    both: u64,
    /// Pairs one line apart: in the second form where both sheets pass, else as they stand.
    near: u64,
    /// Outputs that are not the second reading's.
    differ: u64,
    /// Pairs that were answered with no refusal both ways, and those of them whose turned answer is another.
    turned: u64,
    unturned: u64,
    triples: u64,
    intransitive: u64,
}

fn main() {
    let args: Vec<String> = std::env::args().skip(1).collect();
    let words: Vec<&str> = args.iter().map(String::as_str).collect();
    let [program, profile, seed, count] = words[..] else {
        usage();
    };
    let (seed, count) = (parsed(seed), parsed(count));
    if three(profile, seed).is_none() {
        usage();
    }
    let mut counts = Counts::default();
    let workers = thread::available_parallelism().map_or(1, |count| count.get() as u64);
    thread::scope(|scope| {
        let each = (0..workers).map(|first| {
            scope.spawn(move || {
                let seeds = (seed..seed + count).skip(first as usize);
                let mut worker = Worker::new(program, first).unwrap_or_else(|error| fail(&error));
                for seed in seeds.step_by(workers as usize) {
                    worker
                        .add(profile, seed)
                        .unwrap_or_else(|error| fail(&error));
                }
                worker.done()
            })
        });
        let each: Vec<_> = each.collect();
        for worker in each {
            counts.join(worker.join().expect("a worker ends"));
        }
    });
    println!("{profile}: {count} threes from {seed}: {}", counts.text());
    exit(i32::from(
        counts.differ + counts.unturned + counts.intransitive > 0,
    ));
}

fn usage() -> ! {
    eprintln!("usage: compare_order ORDER PROFILE SEED COUNT");
    eprintln!("profiles: those of gen");
    exit(2)
}

fn fail(error: &io::Error) -> ! {
    eprintln!("compare_order: {error}");
    exit(2)
}

fn parsed(word: &str) -> u64 {
    word.parse().unwrap_or_else(|_| usage())
}

/// Some of the seeds, and files for their sheets.
struct Worker<'a> {
    program: &'a str,
    folder: PathBuf,
    files: [PathBuf; 3],
    counts: Counts,
}

impl<'a> Worker<'a> {
    fn new(program: &'a str, number: u64) -> io::Result<Self> {
        let name = format!("compare_order-{}-{number}", std::process::id());
        let folder = std::env::temp_dir().join(name);
        fs::create_dir_all(&folder)?;
        Ok(Worker {
            program,
            files: [0, 1, 2].map(|place| folder.join(format!("{place}.job"))),
            folder,
            counts: Counts::default(),
        })
    }

    fn done(self) -> Counts {
        fs::remove_dir_all(&self.folder).unwrap_or_else(|error| fail(&error));
        self.counts
    }

    fn add(&mut self, profile: &str, seed: u64) -> io::Result<()> {
        let sheets = three(profile, seed).expect("a profile");
        for (file, sheet) in self.files.iter().zip(&sheets) {
            fs::write(file, sheet)?;
        }
        // what the program wrote, by first and second
        let mut said: [[Option<Said>; 3]; 3] = Default::default();
        for (a, b) in PAIRS {
            let which = format!("{profile} {seed}, {a} and {b}");
            let expected = order(&sheets[a], &sheets[b]);
            self.counts.count(&sheets[a], &sheets[b], &expected);
            said[a][b] = self.run(a, b, &expected, &which);
            let turned = order(&sheets[b], &sheets[a]);
            said[b][a] = self.run(b, a, &turned, &format!("{which}, turned"));
            if let (Some(one), Some(other)) = (said[a][b], said[b][a]) {
                self.counts.turned += 1;
                if other != one.turned() {
                    self.counts.unturned += 1;
                    println!("{which}: turning does not turn the answer");
                }
            }
        }
        self.counts.triple(&said, &format!("{profile} {seed}"));
        Ok(())
    }

    fn run(&mut self, a: usize, b: usize, expected: &[u8], which: &str) -> Option<Said> {
        let output = match run_on(self.program, &[&self.files[a], &self.files[b]]) {
            Ok(output) => output,
            Err(error) => {
                self.counts.differ += 1;
                println!("{which}: {error}");
                return None;
            }
        };
        if output != expected {
            self.counts.differ += 1;
            println!("{which}: differs");
        }
        Said::of(&output)
    }
}

/// An answer that is no refusal.
#[derive(Clone, Copy, PartialEq)]
enum Said {
    Before,
    Same,
    After,
}

impl Said {
    fn of(output: &[u8]) -> Option<Self> {
        match output {
            b"before\n" => Some(Said::Before),
            b"same\n" => Some(Said::Same),
            b"after\n" => Some(Said::After),
            _ => None,
        }
    }

    fn turned(self) -> Self {
        match self {
            Said::Before => Said::After,
            Said::Same => Said::Same,
            Said::After => Said::Before,
        }
    }

    /// What x is to z, where x is this to y and y the other to z, if that says it.
    fn then(self, other: Self) -> Option<Self> {
        match (self, other) {
            (Said::Same, said) | (said, Said::Same) => Some(said),
            _ => (self == other).then_some(self),
        }
    }
}

impl Counts {
    fn count(&mut self, first: &[u8], second: &[u8], expected: &[u8]) {
        self.pairs += 1;
        let answer = String::from_utf8_lossy(expected).trim().replace('\t', " ");
        self.near += u64::from(apart(first, second) == 1);
        let answer = match (shelved(first), shelved(second)) {
            (Ok(_), Ok(_)) => {
                self.both += 1;
                answer
            }
            (Err(_), Ok(_)) => format!("{answer} of the first"),
            (Ok(_), Err(_)) => format!("{answer} of the second"),
            (Err(one), Err(other)) if one == other => format!("{answer} of both"),
            (Err(_), Err(_)) => format!("{answer} beside another"),
        };
        *self.answers.entry(answer).or_default() += 1;
    }

    fn triple(&mut self, said: &[[Option<Said>; 3]; 3], which: &str) {
        let mut tried = false;
        for [x, y, z] in WAYS {
            if let (Some(xy), Some(yz), Some(xz)) = (said[x][y], said[y][z], said[x][z]) {
                tried = true;
                if xy.then(yz).is_some_and(|then| then != xz) {
                    self.intransitive += 1;
                    println!("{which}: not transitive by {x}, {y}, {z}");
                }
            }
        }
        self.triples += u64::from(tried);
    }

    fn join(&mut self, other: Counts) {
        for (answer, count) in other.answers {
            *self.answers.entry(answer).or_default() += count;
        }
        self.pairs += other.pairs;
        self.both += other.both;
        self.near += other.near;
        self.differ += other.differ;
        self.turned += other.turned;
        self.unturned += other.unturned;
        self.triples += other.triples;
        self.intransitive += other.intransitive;
    }

    fn text(&self) -> String {
        let answers = self.answers.iter();
        let answers: Vec<String> = answers.map(|(name, n)| format!("{name}: {n}")).collect();
        format!(
            "{} pairs and as many turned, {} outputs differ; {} answers turned, {} differ; {} triples, {} differ; \
             {} pairs pass, {} of all are one line apart ({})",
            self.pairs,
            self.differ,
            self.turned,
            self.unturned,
            self.triples,
            self.intransitive,
            self.both,
            self.near,
            answers.join(", ")
        )
    }
}
