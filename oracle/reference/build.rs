//! Writes the module tree that names the supplied files where they lie. builder.rs is altered by the repository's
//! patch, in the build folder, with mod.rs copied beside it; with the feature `published` it is taken as it lies too.

mod alteration;

use std::path::{Path, PathBuf};
use std::{env, fs};

/// Module, supplied file.
const ENTITY: [(&str, &str); 2] = [
    ("compact_list", "entity/compact_list.rs"),
    ("secondary_map", "entity/secondary_map.rs"),
];

const INTERNAL: [(&str, &str); 7] = [
    ("coalescing", "internal/coalescing.rs"),
    ("hints", "internal/hints.rs"),
    ("live_range", "internal/live_range.rs"),
    ("spill_allocator", "internal/spill_allocator.rs"),
    ("split_placement", PLACEMENT),
    ("uses", "internal/uses.rs"),
    ("value_live_ranges", "internal/value_live_ranges.rs"),
];

/// The module with the file that is altered.
const VIRT_REGS: [(&str, &str); 1] = [("virt_regs", "internal/virt_regs/mod.rs")];
const BUILDER: &str = "internal/virt_regs/builder.rs";
const PLACEMENT: &str = "internal/split_placement.rs";
const PATCH: &str = "../../docs/builder-cut-side.patch";

const ROOT: [(&str, &str); 4] = [
    ("allocation_unit", "allocation_unit.rs"),
    ("function", "function.rs"),
    ("output", "output.rs"),
    ("reginfo", "reginfo.rs"),
];

/// The Rust's `src`, in the folder that VIRT_REGS_SRC names or in the place beside the repository.
fn supplied() -> PathBuf {
    let given = env::var_os("VIRT_REGS_SRC").map(PathBuf::from);
    let here = PathBuf::from(env::var_os("CARGO_MANIFEST_DIR").unwrap());
    let folder = given.unwrap_or_else(|| here.join("../../../shared/docs/src"));
    let src = folder.join("src");
    if !src.join(BUILDER).exists() {
        panic!("{}", not_found(&folder, &here.join("../../NOTICE")));
    }
    fs::canonicalize(&src).unwrap_or_else(|e| panic!("{}: {e}", src.display()))
}

/// What was looked for, where it comes from, and how its folder is named.
fn not_found(folder: &Path, notice: &Path) -> String {
    let notice = fs::read_to_string(notice).unwrap_or_default();
    let origin = notice.lines().find(|line| line.starts_with("Origin: "));
    format!(
        "the Rust's files are not in this repository, and not in {}.\n{} (NOTICE)\n\
         Set VIRT_REGS_SRC to the folder that holds their src/, as a checkout of that commit does.",
        folder.display(),
        origin.unwrap_or("Their origin is named in NOTICE."),
    )
}

/// Where builder.rs and its mod.rs are compiled from.
fn virt_regs(src: &Path, out: &Path) -> PathBuf {
    if env::var_os("CARGO_FEATURE_PUBLISHED").is_some() {
        return src.to_path_buf();
    }
    let here = PathBuf::from(env::var_os("CARGO_MANIFEST_DIR").unwrap());
    let patch = here.join(PATCH);
    watch(&patch);
    let text = alteration::altered(&read(&src.join(BUILDER)), &read(&patch));
    let text = text.unwrap_or_else(|why| {
        panic!(
            "{} does not fit the Rust's builder.rs: {why}",
            patch.display()
        )
    });
    let altered = out.join("altered/src");
    write(&altered.join(BUILDER), &text);
    for (_, file) in VIRT_REGS {
        write(&altered.join(file), &read(&src.join(file)));
    }
    altered
}

/// Has cargo build again where a file has changed.
fn watch(path: &Path) {
    println!("cargo::rerun-if-changed={}", path.display());
}

fn read(path: &Path) -> String {
    fs::read_to_string(path).unwrap_or_else(|e| panic!("{}: {e}", path.display()))
}

fn write(path: &Path, text: &str) {
    let folder = path.parent().unwrap();
    fs::create_dir_all(folder).unwrap_or_else(|e| panic!("{}: {e}", folder.display()));
    fs::write(path, text).unwrap_or_else(|e| panic!("{}: {e}", path.display()));
}

fn modules(src: &Path, files: &[(&str, &str)]) -> String {
    let mut text = String::new();
    for (name, file) in files {
        let path = src.join(file);
        text += &format!("#[path = {path:?}]\n#[allow(warnings)]\npub mod {name};\n");
    }
    text
}

fn main() {
    println!("cargo::rerun-if-env-changed=VIRT_REGS_SRC");
    watch(Path::new("build.rs"));
    watch(Path::new("alteration.rs"));
    let src = supplied();
    let files = ENTITY
        .iter()
        .chain(&INTERNAL)
        .chain(&VIRT_REGS)
        .chain(&ROOT);
    files.for_each(|(_, file)| watch(&src.join(file)));
    watch(&src.join(BUILDER));
    let out = PathBuf::from(env::var_os("OUT_DIR").unwrap());
    let compiled = virt_regs(&src, &out);
    let builder = compiled.join(BUILDER);
    println!("cargo::rustc-env=VIRT_REGS_BUILDER={}", builder.display());
    let placement = src.join(PLACEMENT);
    println!(
        "cargo::rustc-env=VIRT_REGS_PLACEMENT={}",
        placement.display()
    );
    let text = format!(
        "pub mod entity {{\npub use crate::stand_ins::entity::*;\n\
         pub use self::compact_list::{{CompactList, CompactListPool}};\n\
         pub use self::secondary_map::SecondaryMap;\n{}}}\n\
         pub mod internal {{\npub use crate::stand_ins::passes::*;\n{}{}}}\n{}",
        modules(&src, &ENTITY),
        modules(&src, &INTERNAL),
        modules(&compiled, &VIRT_REGS),
        modules(&src, &ROOT),
    );
    write(&out.join("tree.rs"), &text);
}
