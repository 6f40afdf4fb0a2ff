//! A sheet of the second form about to be damaged.

use super::rewrite::{self, Texts, text};
use crate::form;
use crate::job::Job;
use crate::make::rng::Rng;
use crate::make::write::sheet_of;
use crate::make::{braids, falling, soup, style};

pub struct Draft {
    /// The form line with its line feed.
    pub line: Vec<u8>,
    /// The sheet in the first form.
    pub body: Vec<u8>,
    /// What stands behind each block line and each seg line.
    pub texts: Texts,
    /// What these lines imply.
    pub implied: [Vec<u32>; 2],
    pub job: Job,
}

impl Draft {
    /// Sound, if the job is.
    pub fn new(job: Job) -> Self {
        let body = sheet_of(&job);
        let implied = rewrite::implied(&body);
        let texts = implied
            .each_ref()
            .map(|fields| fields.iter().map(|&field| text(field)).collect());
        Self {
            line: form::LINE.to_vec(),
            body,
            texts,
            implied,
            job,
        }
    }

    pub fn sheet(&self) -> Vec<u8> {
        rewrite::assemble(&self.line, &self.body, &self.texts)
    }
}

/// A job that passes the entry tests.
pub fn any_job(rng: &mut Rng) -> Job {
    match rng.below(12) {
        0 | 1 => braids::make(rng),
        2 => falling::make(rng),
        _ => {
            let profile = rng.pick(&["small", "classes", "groups", "hints", "floats"]);
            soup::make(rng, &style::of(profile).unwrap())
        }
    }
}

/// Drawn again and again until something can be made of it.
pub fn until<T, U>(
    rng: &mut Rng,
    draw: impl Fn(&mut Rng) -> T,
    make: impl Fn(&mut Rng, T) -> Option<U>,
) -> U {
    loop {
        let drawn = draw(rng);
        if let Some(made) = make(rng, drawn) {
            return made;
        }
    }
}
