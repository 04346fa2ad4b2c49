//! What cargo and the compiler say to those who use the crate: without the
//! archives, about a match without a last arm, about an answer that is thrown
//! away; that `cargo doc` and `cargo clippy` warn of nothing, and that the
//! documentation stands alone.

use std::fs;
use std::path::{Path, PathBuf};
use std::process::{Command, Output};

/// A directory of this name for what the tests make.
fn directory(name: &str) -> PathBuf {
    let directory = Path::new(env!("CARGO_TARGET_TMPDIR")).join(name);
    fs::create_dir_all(&directory).unwrap();
    directory
}

/// This crate's package.
fn package() -> &'static Path {
    Path::new(env!("CARGO_MANIFEST_DIR"))
}

/// Cargo's command for a package. It builds beside these tests, and asks for
/// nothing from outside.
fn cargo(command: &str, package: &Path) -> Command {
    let mut cargo = Command::new(env!("CARGO"));
    cargo
        .args([command, "--offline", "--manifest-path"])
        .arg(package.join("Cargo.toml"))
        .env("CARGO_TARGET_DIR", directory("target"))
        .env("CARGO_TERM_COLOR", "never");
    for flags in ["RUSTFLAGS", "RUSTDOCFLAGS", "CARGO_ENCODED_RUSTFLAGS"] {
        cargo.env_remove(flags);
    }
    cargo
}

/// What cargo says.
fn said(output: &Output) -> String {
    String::from_utf8_lossy(&output.stderr).into_owned()
}

/// What a build says that is to find the archives in this directory.
fn without_archives(directory: &Path) -> String {
    let mut cargo = cargo("build", package());
    let output = cargo.env("BARZHILUP_LIB", directory).output().unwrap();
    assert!(!output.status.success());
    said(&output)
}

/// Where an archive is missing, the build says which and how it is made, and
/// nothing is compiled or linked.
#[test]
fn archives_that_are_missing() {
    let place = directory("no-archives");
    let both = without_archives(&place);
    let wanted = format!(
        "no libcapi.a and no libpanel.a in {}, which BARZHILUP_LIB names: \
         run `bash scripts/libraries` in the project's root",
        place.canonicalize().unwrap().display()
    );
    assert!(both.contains(&wanted), "{both}");
    for other in ["could not find native static library", "linking with"] {
        assert!(!both.contains(other), "{both}");
    }

    let place = directory("one-archive");
    fs::write(place.join("libcapi.a"), b"").unwrap();
    let one = without_archives(&place);
    assert!(one.contains("no libpanel.a in "), "{one}");
    assert!(one.contains("run `bash scripts/libraries` in"), "{one}");
    assert!(!one.contains("no libcapi.a"), "{one}");
}

/// What the compiler says to a library with this source that uses the crate, and
/// whether it takes it.
fn compiled(name: &str, source: &str) -> (bool, String) {
    let user = directory(name);
    let manifest = format!(
        "[package]\nname = \"{name}\"\nedition = \"2021\"\n\n[dependencies]\n\
         barzhilup = {{ path = {:?} }}\n\n[workspace]\n",
        package()
    );
    fs::create_dir_all(user.join("src")).unwrap();
    fs::write(user.join("Cargo.toml"), manifest).unwrap();
    fs::write(user.join("src/lib.rs"), source).unwrap();
    let output = cargo("check", &user).output().unwrap();
    (output.status.success(), said(&output))
}

/// The code that `docs/USING.md` shows in its chapter on this crate compiles, and
/// the compiler warns of nothing in it.
#[test]
fn the_code_in_using() {
    let using = fs::read_to_string(package().join("../../docs/USING.md")).unwrap();
    let chapter = using.split("\n## ").find(|part| part.starts_with("Rust\n"));
    let code: String = chapter
        .unwrap()
        .lines()
        .skip_while(|line| !line.starts_with("    use barzhilup::"))
        .take_while(|line| line.is_empty() || line.starts_with("    "))
        .map(|line| format!("{line}\n"))
        .collect();
    assert!(code.contains("for entry in &log"), "{code}");
    let (taken, said) = compiled("using", &code);
    assert!(taken && !said.contains("warning"), "{said}");
}

/// An enum's name, and all its variants as patterns.
const ENUMS: [(&str, &str); 7] = [
    (
        "Refusal",
        "State CarryLength PduLength Uncorrectable Mode OtherMode Sequence Pieces La Expansion \
         Locator{..} Displacement LogLength Value Packets Psd Room Lengths Marks Pair Counts \
         Programs LogWords Numbers Words WordBuffer CountLimit",
    ),
    (
        "Cause",
        "Sequence Crc NothingHeld NotContinued TooLong Lost CopiesDiffer Withheld",
    ),
    ("Mode", "M0 M1 M2 M3 M10 M13"),
    ("RecordError", "Cut{..} TooLong{..} Read{..}"),
    ("Stream", "Core Enhanced"),
    ("Entry", "Packet{..} Psd(_) Note{..}"),
    ("Record", "Pdu(_) Lost"),
];

/// How many of the enums may grow; they come first.
const GROWING: usize = 4;

/// A function that matches on these enums' variants, and on this too.
fn matches(enums: &[(&str, &str)], last: &str) -> String {
    let mut source = String::new();
    for (name, variants) in enums {
        let arms = variants.split_whitespace();
        let arms: String = arms
            .map(|variant| format!("barzhilup::{name}::{variant} => (),\n"))
            .collect();
        source += &format!(
            "pub fn on_{}(value: &barzhilup::{name}) {{ match value {{ {arms} {last} }} }}\n",
            name.to_lowercase()
        );
    }
    source
}

/// A match over an enum that may grow needs a last arm for what is new, and one
/// over an enum that does not grow needs none.
#[test]
fn enums_that_may_grow() {
    let (taken, said) = compiled("all-but-new", &matches(&ENUMS[..GROWING], ""));
    assert!(!taken);
    assert_eq!(said.matches("error[E0004]").count(), GROWING, "{said}");
    for (name, _) in &ENUMS[..GROWING] {
        let note = format!("{name}` is marked as non-exhaustive");
        assert!(said.contains(&note), "{name}: {said}");
    }
    let source = matches(&ENUMS[..GROWING], "_ => ()") + &matches(&ENUMS[GROWING..], "");
    let (taken, said) = compiled("all-and-new", &source);
    assert!(taken && !said.contains("warning"), "{said}");
}

/// Statements that throw an answer away.
const THROWN_AWAY: [&str; 35] = [
    "crc8(b\"1\")",
    "crc8_from(1, b\"1\")",
    "syndromes(&[0; 96])",
    "parity(&[0; 96])",
    "choose(b\"1\", b\"2\")",
    "mode.number()",
    "stream.number()",
    "refusal.number()",
    "cause.number()",
    "log.words()",
    "log.entries()",
    "log.into_iter()",
    "data.len()",
    "data.is_empty()",
    "data.bytes()",
    "data.to_vec()",
    "joined.words()",
    "joined.packets()",
    "piece.range()",
    "writer.state()",
    "receiver.state()",
    "receiver.carry()",
    "receiver.held()",
    "receiver.delivered()",
    "receiver.missing()",
    "receiver.last_number()",
    "error.offset()",
    "Records::new(&[][..])",
    "Records::open(\"pdus\")?",
    "join(&[], &[])?",
    "try_latency(mode, stream, &[1], 0)?",
    "receiver.receive_batch(&mut [], &[])?",
    "receiver.receive(&mut [])",
    "add_parity_share([0; 8], 8, 1)",
    "correct_header(&mut [])",
];

/// Each answer that is of no use unless it is looked at is warned of; a log is
/// not, since the receiver counts what it delivers.
#[test]
fn answers_that_are_thrown_away() {
    let parameters = "mode: Mode, stream: Stream, refusal: Refusal, cause: Cause, log: Log, \
                      data: Data, joined: &Joined, piece: Piece, writer: &Writer, \
                      receiver: &mut Receiver, error: &RecordError";
    let body: String = THROWN_AWAY
        .iter()
        .map(|call| format!("{call};\n"))
        .collect();
    let source = format!(
        "use barzhilup::*;\npub fn user({parameters}) -> Result<(), Box<dyn std::error::Error>> {{\n\
         {body}receiver.mark_lost();\nreceiver.receive(&mut [])?;\nOk(())\n}}\n"
    );
    let (taken, said) = compiled("thrown-away", &source);
    assert!(taken, "{said}");
    for (place, call) in THROWN_AWAY.iter().enumerate() {
        let line = format!("src/lib.rs:{}:", place + 3);
        assert!(said.contains(&line), "{call}: {said}");
    }
    let warned = said.matches("that must be used\n").count();
    assert_eq!(warned, THROWN_AWAY.len(), "{said}");
}

/// The documentation of the public items, and of all items, is made without a
/// warning.
#[test]
fn documentation() {
    for arguments in [
        &["--no-deps"][..],
        &["--no-deps", "--document-private-items"],
    ] {
        let mut cargo = cargo("doc", package());
        let output = cargo
            .args(arguments)
            .env("RUSTDOCFLAGS", "-D warnings")
            .output()
            .unwrap();
        assert!(output.status.success(), "{}", said(&output));
    }
}

/// The files of Rust in a directory and those below it.
fn sources(directory: &Path) -> Vec<PathBuf> {
    let mut found = Vec::new();
    for entry in fs::read_dir(directory).unwrap() {
        let path = entry.unwrap().path();
        if path.is_dir() {
            found.extend(sources(&path));
        } else {
            found.push(path);
        }
    }
    found
}

/// What a user reads says the thing itself, and names no paper that a user has
/// not. The first lines of a module that is not public are for those who change it.
#[test]
fn documentation_stands_alone() {
    let mut words = 0;
    for path in sources(&package().join("src")) {
        let source = fs::read_to_string(&path).unwrap();
        let front = path.ends_with("lib.rs");
        let read_by_users = source
            .lines()
            .map(str::trim_start)
            .filter(|line| line.starts_with("///") || front && line.starts_with("//!"))
            .flat_map(|line| line[3..].split_whitespace());
        let text: Vec<_> = read_by_users.collect();
        words += text.len();
        let text = text.join(" ");
        for paper in ["ocument 0", "Ask ", "Asks ", "demand ", "DECISIONS", " 001"] {
            if let Some((before, _)) = text.split_once(paper) {
                let sentence = before.rsplit(". ").next().unwrap();
                panic!("{}: {sentence}{paper}", path.display());
            }
        }
    }
    assert!(words > 8_000, "{words}");
}

/// Clippy, where it is installed, warns of nothing in the crate, its tests and
/// its examples.
#[test]
fn clippy() {
    let version = Command::new(env!("CARGO"))
        .args(["clippy", "--version"])
        .output();
    if !version.is_ok_and(|output| output.status.success()) {
        println!("clippy is not installed");
        return;
    }
    let mut cargo = cargo("clippy", package());
    let output = cargo
        .args(["--all-targets", "--", "-D", "warnings"])
        .output()
        .unwrap();
    assert!(output.status.success(), "{}", said(&output));
}
