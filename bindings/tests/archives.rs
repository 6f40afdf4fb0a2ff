//! The rule of build.rs by which an archive is refused, on a small repository of its own.

#[allow(dead_code)]
#[path = "../build.rs"]
mod build_script;

use build_script::{fit, sources};
use std::fs::{self, File};
use std::path::{Path, PathBuf};
use std::time::{Duration, SystemTime};

/// Writes a file that was changed so many seconds after the others' beginning.
fn put(top: &Path, path: &str, text: &str, seconds: u64) {
    let path = top.join(path);
    fs::create_dir_all(path.parent().expect("a folder")).expect("a folder");
    fs::write(&path, text).expect("a file");
    let time = SystemTime::UNIX_EPOCH + Duration::from_secs(1_000_000 + seconds);
    let file = File::options().write(true).open(&path).expect("a file");
    file.set_modified(time).expect("a time");
}

const LIST: &str =
    "# NAME: DEPENDENCIES\nlow:\nmiddle: low\ntop: middle json\ntop_c staticlib: top\nother: low\n";

fn repository(name: &str) -> PathBuf {
    let top = Path::new(env!("CARGO_TARGET_TMPDIR")).join(name);
    let _ = fs::remove_dir_all(&top);
    put(&top, "crates.txt", LIST, 90);
    for name in ["low", "middle", "top", "top_c", "other"] {
        put(&top, &format!("crates/{name}/src/lib"), "", 10);
        put(&top, &format!("crates/{name}/specs/Lib"), "", 90);
    }
    put(&top, "target/staticlib/libtop.a", "", 20);
    top
}

fn refusal(top: &Path) -> Option<String> {
    fit(top, "top").expect("files with a time").err()
}

#[test]
fn dependencies_are_followed() {
    let top = repository("followed");
    let folders = sources(&top, "top_c").expect("a list");
    let names =
        ["low", "middle", "top", "top_c"].map(|name| top.join("crates").join(name).join("src"));
    assert_eq!(folders, names);
}

#[test]
fn an_archive_younger_than_the_code_is_fit() {
    assert_eq!(refusal(&repository("fit")), None);
}

#[test]
fn a_change_of_code_below_is_noticed() {
    let top = repository("stale");
    put(&top, "crates/other/src/lib", "", 30);
    assert_eq!(refusal(&top), None);
    put(&top, "crates/low/src/deep/new", "", 30);
    let why = refusal(&top).expect("a refusal");
    assert!(why.contains("libtop.a is older than ") && why.contains("crates/low/src/deep/new"));
    assert!(why.ends_with("run `tools/archives.sh top` at the top of the repository"));
    put(&top, "target/staticlib/libtop.a", "", 30);
    assert_eq!(refusal(&top), None);
}

#[test]
fn a_missing_archive_is_noticed() {
    let top = repository("missing");
    fs::remove_file(top.join("target/staticlib/libtop.a")).expect("a file");
    let why = refusal(&top).expect("a refusal");
    assert!(why.starts_with("there is no ") && why.contains("tools/archives.sh top"));
}
