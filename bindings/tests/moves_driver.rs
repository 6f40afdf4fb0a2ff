//! The driver of `find_cut_moves`, examples/moves.rs, as a program: what it prints for lines of its form, and how it
//! ends at others and where a stream fails.

use std::fs::File;
use std::io::{BufRead, BufReader, Write};
use std::path::{Path, PathBuf};
use std::process::{Command, Output, Stdio};
use std::sync::OnceLock;
use std::thread;

/// The profile that this test was built by, from its own place: `debug` is that of `dev`.
fn profile() -> String {
    let own = std::env::current_exe().expect("a program");
    let folder = own.parent().and_then(Path::parent);
    let name = folder.and_then(Path::file_name).expect("a folder");
    let name = name.to_str().expect("a profile");
    if name == "debug" { "dev" } else { name }.to_string()
}

/// Builds the example, if that is not done, and says where it is.
fn program() -> &'static Path {
    static PLACE: OnceLock<PathBuf> = OnceLock::new();
    PLACE.get_or_init(|| {
        let built = Command::new(env!("CARGO"))
            .args(["build", "--offline", "--example", "moves", "--profile"])
            .args([&profile(), "--message-format=json"])
            .current_dir(env!("CARGO_MANIFEST_DIR"))
            .output()
            .expect("cargo");
        let text = String::from_utf8(built.stdout).expect("messages");
        let told = String::from_utf8_lossy(&built.stderr);
        let (_, place) = text
            .rsplit_once("\"executable\":\"")
            .unwrap_or_else(|| panic!("no example moves: {told}"));
        place.split('"').next().expect("a place").into()
    })
}

/// Runs it over some input.
fn run(input: &[u8]) -> Output {
    let mut child = Command::new(program())
        .stdin(Stdio::piped())
        .stdout(Stdio::piped())
        .stderr(Stdio::piped())
        .spawn()
        .expect("the driver");
    let (mut stdin, input) = (child.stdin.take().expect("a pipe"), input.to_vec());
    // It may end before all is read.
    let feeder = thread::spawn(move || stdin.write_all(&input).is_ok());
    let output = child.wait_with_output().expect("an end");
    feeder.join().expect("the feeder's end");
    output
}

/// What it prints for input that is all of its form.
fn answers(input: &str) -> String {
    let output = run(input.as_bytes());
    assert_eq!(String::from_utf8_lossy(&output.stderr), "");
    assert_eq!(output.status.code(), Some(0));
    String::from_utf8(output.stdout).expect("text")
}

/// Three blocks of frequencies 4, 2.5 and 3.
const BLOCKS: &str = "030000000000804002000000000020400100000000004040";
const FIRST: &str = "000000000100000000006000";
const SECOND: &str = "010000000000000000006000";

#[test]
fn the_example_of_its_text() {
    let zeros = "0".repeat(32);
    let expected = format!("0\t2\t{FIRST}{SECOND}{zeros}\n");
    assert_eq!(answers(&format!("0\t1\t4\t40\t{BLOCKS}\n")), expected);
}

#[test]
fn lines_are_answered_in_order() {
    let input = format!(
        "0\t1\t4\t36\t{BLOCKS}\n1\t1\t4\t36\t{BLOCKS}\n0\t1\t4\t35\t{BLOCKS}\n0\t4\t1\t1\t{BLOCKS}\n\
         2\t1\t4\t0\t{BLOCKS}\n0\t0\t1\t3\t-\n0\t0\t1\t12\t0110000000000000\n0\t0\t1\t12\t02000000000000ff\n"
    );
    let (behind, zeros) = ("0".repeat(24), "0".repeat(70));
    // Late, block 0 has to go below block 1: one step more, and as many for block 1.
    let late = "0\t2\t000000000100000001006000010000000000000001006000";
    let expected = format!(
        "0\t2\t{FIRST}{SECOND}{behind}\n{late}{behind}\n9\t0\t{zeros}\n4\t0\t00\n1\t0\t-\n1\t0\t000000\n\
         2\t0\t{behind}\n4\t0\t{behind}\n"
    );
    assert_eq!(answers(&input), expected);
}

#[test]
fn no_line_and_a_last_one_without_line_feed() {
    assert_eq!(answers(""), "");
    assert_eq!(answers("0\t0\t1\t2\t-"), "1\t0\t0000\n");
    assert_eq!(
        answers("0\t0\t1\t0\t-\n0\t0\t1\t0\t-"),
        "1\t0\t-\n1\t0\t-\n"
    );
}

#[test]
fn numbers_at_their_ends() {
    let line = "4294967295\t4294967295\t4294967295\t0\t-\n";
    assert_eq!(answers(line), "1\t0\t-\n");
    let zeros = format!("000\t0001\t{}4\t036\t{BLOCKS}\n", "0".repeat(40));
    let plain = format!("0\t1\t4\t36\t{BLOCKS}\n");
    assert_eq!(answers(&zeros), answers(&plain));
}

/// All rows of a function of 512 blocks, and a long list.
#[test]
fn a_long_line() {
    let row = "080000000000803f";
    let line = format!("1\t0\t4095\t100000\t{}\n", row.repeat(512));
    let told = answers(&line);
    let list = told.strip_prefix("0\t512\t").expect("512 rows");
    assert_eq!(list.len(), 200_001);
    assert!(
        list[24 * 512..]
            .trim_end()
            .bytes()
            .all(|digit| digit == b'0')
    );
    assert!(list.starts_with("000000000100000001000000"));
}

/// What is not of the form ends it: the lines before are answered, none behind, and it says which line it was.
#[test]
fn other_forms() {
    let fine = format!("0\t1\t4\t12\t{BLOCKS}\n");
    let told = answers(&fine);
    let others = [
        "",
        "-",
        "0\t1\t4\t12",
        "0\t1\t4\t12\t",
        "0\t1\t4\t12\t-\t",
        "0\t1\t4\t12\t-\t-",
        "\t1\t4\t12\t-",
        "0\t\t4\t12\t-",
        "0\t1\t4\t\t-",
        "0 1 4 12 -",
        " 0\t1\t4\t12\t-",
        "0\t1\t4\t12\t- ",
        "0\t+1\t4\t12\t-",
        "0\t-1\t4\t12\t-",
        "0\t1\t0x4\t12\t-",
        "0\t1\t4.0\t12\t-",
        "early\t1\t4\t12\t-",
        "4294967296\t1\t4\t12\t-",
        "0\t4294967296\t4\t12\t-",
        "0\t1\t4294967296\t12\t-",
        "0\t1\t4\t-12\t-",
        "0\t1\t4\t18446744073709551616\t-",
        "0\t1\t4\t12\t--",
        "0\t1\t4\t12\t-00",
        "0\t1\t4\t12\t00-",
        "0\t1\t4\t12\t0",
        "0\t1\t4\t12\t000",
        "0\t1\t4\t12\t0A",
        "0\t1\t4\t12\t0g",
        "0\t1\t4\t12\t00 00",
        "0\t1\t4\t12\t0x00",
        "0\t1\t4\t12\t-\r",
        "0\t1\t4\t12\t00\0",
        "0\t1\t4\t12\té0",
    ];
    for other in others {
        let output = run(format!("{fine}{other}\n{fine}").as_bytes());
        assert_eq!(output.status.code(), Some(2), "{other:?}");
        assert_eq!(String::from_utf8_lossy(&output.stdout), told, "{other:?}");
        let said = String::from_utf8_lossy(&output.stderr);
        assert!(said.starts_with("moves: line 2: "), "{other:?}: {said}");
    }
    let output = run(b"0\t1\t4\t12\t\xff\xff\n");
    assert_eq!((output.status.code(), output.stdout.len()), (Some(2), 0));
}

/// A list for which there is no memory is said too.
#[test]
fn no_memory() {
    let output = run(b"0\t1\t4\t0\t-\n0\t1\t4\t18446744073709551615\t-\n");
    assert_eq!(output.status.code(), Some(2));
    assert_eq!(output.stdout, b"1\t0\t-\n");
    let said = "moves: line 2: there is no memory for a list of that length\n";
    assert_eq!(String::from_utf8_lossy(&output.stderr), said);
}

/// Runs it with these streams; its status, and what it says.
fn with(stdin: Stdio, stdout: Stdio) -> (Option<i32>, String) {
    let output = Command::new(program())
        .stdin(stdin)
        .stdout(stdout)
        .stderr(Stdio::piped())
        .output()
        .expect("the driver");
    let said = String::from_utf8(output.stderr).expect("text");
    (output.status.code(), said)
}

fn file(name: &str, content: &str) -> PathBuf {
    let path = Path::new(env!("CARGO_TARGET_TMPDIR")).join(name);
    std::fs::write(&path, content).expect("a file");
    path
}

#[test]
fn streams_that_fail() {
    let line = file("moves_line", "0\t0\t1\t0\t-\n");
    let open = |path: &Path| Stdio::from(File::open(path).expect("a file"));
    let write_only = File::options().append(true).open(&line).expect("a file");
    let full = File::options()
        .write(true)
        .open("/dev/full")
        .expect("a device");
    let (status, said) = with(open(&line), full.into());
    assert!(
        status == Some(1) && said.starts_with("moves: standard output: "),
        "{said}"
    );
    let (status, said) = with(open(&line), open(&line));
    assert!(
        status == Some(1) && said.starts_with("moves: standard output: "),
        "{said}"
    );
    let (status, said) = with(open(Path::new("/")), Stdio::null());
    assert!(
        status == Some(1) && said.starts_with("moves: standard input: "),
        "{said}"
    );
    let (status, said) = with(write_only.into(), Stdio::null());
    assert!(
        status == Some(1) && said.starts_with("moves: standard input: "),
        "{said}"
    );
    assert_eq!(with(open(&line), Stdio::null()), (Some(0), String::new()));
}

/// A stream that is closed is said too, and not taken for /dev/null.
#[test]
fn streams_that_are_closed() {
    let shell = |command: &str| {
        let output = Command::new("sh")
            .args(["-c", command])
            .arg(program())
            .output()
            .expect("a shell");
        let said = String::from_utf8(output.stderr).expect("text");
        (output.status.code(), said)
    };
    let why = "Bad file descriptor (os error 9)";
    let closed = |name: &str| (Some(1), format!("moves: standard {name}: {why}\n"));
    assert_eq!(
        shell("printf '0\\t0\\t1\\t0\\t-' | \"$0\" >&-"),
        closed("output")
    );
    assert_eq!(shell("\"$0\" <&-"), closed("input"));
    assert_eq!(
        shell("\"$0\" </dev/null >/dev/null"),
        (Some(0), String::new())
    );
}

/// An answer comes before the next line is there.
#[test]
fn line_by_line() {
    let mut child = Command::new(program())
        .stdin(Stdio::piped())
        .stdout(Stdio::piped())
        .spawn()
        .expect("the driver");
    let mut stdin = child.stdin.take().expect("a pipe");
    let mut stdout = BufReader::new(child.stdout.take().expect("a pipe"));
    for _ in 0..3 {
        let mut told = String::new();
        stdin.write_all(b"0\t0\t1\t1\t-\n").expect("a line");
        stdout.read_line(&mut told).expect("an answer");
        assert_eq!(told, "1\t0\t00\n");
    }
    drop(stdin);
    assert_eq!(child.wait().expect("an end").code(), Some(0));
}
