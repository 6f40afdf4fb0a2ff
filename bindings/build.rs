//! Links the proved functions from `target/staticlib` at the top of the repository. An archive that is missing, or
//! older than the code that it is made of, is refused with a word on how to make it.
//!
//! An archive is made of the static library `NAME_c`. Its code is `crates/NAME_c/src` and that of all crates that it
//! depends on by crates.txt, which lists for each those that it names. What contracts cite (`specs`) and proofs are not
//! looked at: they hold no code, and an archive made before they changed is the same, byte for byte. Nor is the time of
//! crates.txt: a new line in it changes no code that is there.

use std::collections::BTreeSet;
use std::path::{Path, PathBuf};
use std::time::SystemTime;
use std::{env, fs, io};

const ARCHIVES: [&str; 3] = ["find_cut", "cut_moves", "build"];

fn main() {
    let here = PathBuf::from(env::var_os("CARGO_MANIFEST_DIR").expect("run by cargo"));
    let top = here.parent().expect("the top of the repository");
    let folder = top.join("target/staticlib");
    println!("cargo::rerun-if-changed=build.rs");
    println!("cargo::rustc-link-search=native={}", folder.display());
    for name in ARCHIVES {
        let watched = watched(top, name).expect("crates.txt and the folders of its crates");
        for path in watched {
            println!("cargo::rerun-if-changed={}", path.display());
        }
        match fit(top, name).expect("files with a time") {
            Ok(()) => println!("cargo::rustc-link-lib=static={name}"),
            Err(why) => println!("cargo::error={why}"),
        }
    }
}

fn archive(top: &Path, name: &str) -> PathBuf {
    top.join(format!("target/staticlib/lib{name}.a"))
}

/// The crate that an archive is made of.
fn library(name: &str) -> String {
    format!("{name}_c")
}

/// What an answer of `fit` depends on.
fn watched(top: &Path, name: &str) -> io::Result<Vec<PathBuf>> {
    let mut paths = sources(top, &library(name))?;
    paths.push(top.join("crates.txt"));
    paths.push(archive(top, name));
    Ok(paths)
}

/// Whether the archive can be linked, or how to make it.
pub fn fit(top: &Path, name: &str) -> io::Result<Result<(), String>> {
    let path = archive(top, name);
    let make = format!("run `tools/archives.sh {name}` at the top of the repository");
    if !path.exists() {
        return Ok(Err(format!("there is no {}: {make}", path.display())));
    }
    let made = path.metadata()?.modified()?;
    for folder in sources(top, &library(name))? {
        if let Some(newer) = newer_in(&folder, made)? {
            let (path, newer) = (path.display(), newer.display());
            return Ok(Err(format!("{path} is older than {newer}: {make}")));
        }
    }
    Ok(Ok(()))
}

/// The folders of code of a crate and of all that it depends on. The kit's libraries have no line in crates.txt.
pub fn sources(top: &Path, name: &str) -> io::Result<Vec<PathBuf>> {
    let list = fs::read_to_string(top.join("crates.txt"))?;
    let (mut found, mut left) = (BTreeSet::new(), vec![name.to_string()]);
    while let Some(name) = left.pop() {
        let line = list.lines().find_map(|line| {
            let (first, rest) = line.split_once(':')?;
            (first.split_whitespace().next() == Some(&name)).then_some(rest)
        });
        if let Some(line) = line
            && found.insert(name)
        {
            left.extend(line.split_whitespace().map(str::to_string));
        }
    }
    let folder = |name: &String| top.join("crates").join(name).join("src");
    Ok(found.iter().map(folder).collect())
}

/// A file below a folder that was changed after a time.
fn newer_in(folder: &Path, time: SystemTime) -> io::Result<Option<PathBuf>> {
    for entry in fs::read_dir(folder)? {
        let path = entry?.path();
        if path.is_dir() {
            if let Some(newer) = newer_in(&path, time)? {
                return Ok(Some(newer));
            }
        } else if path.metadata()?.modified()? > time {
            return Ok(Some(path));
        }
    }
    Ok(None)
}
