//! Sends random drives through the program's four subcommands, run as
//! processes, and compares what they write and say with the reference: the
//! generated PDUs with the writer's, the channel's damage with its options, the
//! log's words, lines and counts with the receiver's log, and the coverage
//! picture with what the log says. The exit status has to go with what is said.
//! Generator and log are asked for equal registers of the CRCs, or for unequal
//! ones (document 02, Ask 2).
//! The program is `barzhilup` in `../target/bin` seen from this package, or in
//! the directory that `BARZHILUP_BIN` names; it has to be built before.

#[allow(dead_code)]
mod calls;
#[allow(dead_code)]
mod samples;

use calls::{most_psd, some_bytes, some_length, some_packet, some_settings};
use referee::control::{self, ControlWord};
use referee::encode::{Field, Parts, Piece};
use referee::header::{self, PLACES};
use referee::locators;
use referee::log::{self, Entry};
use referee::modes::{Line, TABLE};
use referee::receiver::{self, CARRY_BYTES, LOG_WORDS};
use referee::rng::Rng;
use referee::settings::{Applied, ProgramType, Settings};
use referee::writer::{self, Offer};
use samples::{Sample, Wish};
use std::collections::{BTreeMap, BTreeSet};
use std::env;
use std::fmt::Display;
use std::fs::{self, File};
use std::io::Write;
use std::ops::Range;
use std::path::{Path, PathBuf};
use std::process::{Command, Stdio};
use std::thread;

/// How often something came, by its name or number.
type Counts<K> = BTreeMap<K, u64>;

/// The bytes of an output file that is there before; more than some runs write.
const OLD: [u8; 3_000] = [0xEE; 3_000];

fn count<K: Ord>(counts: &mut Counts<K>, key: K, more: usize) {
    *counts.entry(key).or_default() += more as u64;
}

// The program.

/// Where the program is. It is wrong that there is none.
fn program() -> PathBuf {
    let own = Path::new(env!("CARGO_MANIFEST_DIR")).join("../target/bin");
    let bin = env::var_os("BARZHILUP_BIN").map_or(own, PathBuf::from);
    let path = bin.join("barzhilup");
    assert!(path.is_file(), "no {}; build it first", path.display());
    path
}

/// How the program gets what it reads.
#[derive(Clone, Copy, Debug, PartialEq, Eq, PartialOrd, Ord)]
enum Way {
    Named,
    Redirected,
    Piped,
}

/// Where what the program writes goes: to a pipe, to a file that is not there,
/// or to one that is, which has to be kept under the name with a tilde.
#[derive(Clone, Copy, Debug, PartialEq, Eq, PartialOrd, Ord)]
enum Onto {
    Pipe,
    New,
    Forced,
}

/// Runs the program with files of its own.
struct Bench {
    place: PathBuf,
    rng: Rng,
    runs: Counts<String>,
    ways: Counts<Way>,
    ontos: Counts<Onto>,
}

/// What a subcommand wrote, and what it said on standard error.
struct Ran {
    written: Vec<u8>,
    said: Vec<String>,
}

/// A name of an option and its value.
fn option(options: &mut Vec<String>, name: &str, value: impl Display) {
    options.push(format!("--{name}"));
    options.push(value.to_string());
}

/// The same, but one that says what goes without saying may be left out.
fn option_but<V: Display + PartialEq>(
    rng: &mut Rng,
    options: &mut Vec<String>,
    name: &str,
    value: V,
    unsaid: V,
) {
    if value != unsaid || rng.below(2) == 0 {
        option(options, name, value);
    }
}

/// The options that have no value.
const FLAGS: [&str; 2] = ["--adts", "--displacement"];

/// The options, some of them with their value in the same argument.
fn joined(rng: &mut Rng, options: &[String]) -> Vec<String> {
    let mut joined = Vec::new();
    let mut left = options.iter();
    while let Some(option) = left.next() {
        joined.push(option.clone());
        if FLAGS.contains(&option.as_str()) {
            continue;
        }
        let value = left.next().expect("a value");
        if rng.below(2) == 0 {
            joined.push(value.clone());
        } else {
            joined.last_mut().expect("an option").push('=');
            joined.last_mut().expect("an option").push_str(value);
        }
    }
    joined
}

/// The last line of a subcommand that has not done all.
fn stopped_early(name: &str) -> String {
    format!("barzhilup {name}: stopped early")
}

/// The exit status has to go with what is said: 1 where the last line says that
/// not all is done, else 0, and no other line says so.
fn check_status(name: &str, status: Option<i32>, said: &[String]) {
    let last = stopped_early(name);
    let early = said.last() == Some(&last);
    assert_eq!(status, Some(i32::from(early)), "{name}: {said:?}");
    let lines = said.iter().filter(|line| **line == last).count();
    assert_eq!(lines, usize::from(early), "{name}: {said:?}");
}

/// The lines of a text.
fn text_lines(bytes: Vec<u8>) -> Vec<String> {
    let text = String::from_utf8(bytes).expect("a text in UTF-8");
    assert!(text.is_empty() || text.ends_with('\n'), "{text}");
    text.lines().map(str::to_string).collect()
}

impl Bench {
    fn new(name: &str, seed: u64) -> Bench {
        let place = Path::new(env!("CARGO_TARGET_TMPDIR")).join(name);
        fs::create_dir_all(&place).expect("a directory for files");
        Bench {
            place,
            rng: Rng::new(seed),
            runs: Counts::new(),
            ways: Counts::new(),
            ontos: Counts::new(),
        }
    }

    /// A file with these bytes.
    fn file(&self, name: &str, bytes: &[u8]) -> String {
        let path = self.place.join(name);
        fs::write(&path, bytes).expect("a file that can be written");
        path.to_str().expect("a name in UTF-8").to_string()
    }

    /// Any way that the program can get what it reads.
    fn way(&mut self) -> Way {
        [Way::Named, Way::Redirected, Way::Piped][self.rng.below(3)]
    }

    /// The place of the file that is written, and of one that it had to leave.
    fn output(&self) -> (PathBuf, PathBuf) {
        (self.place.join("output"), self.place.join("output~"))
    }

    /// Where what the program writes goes, at random; a file that is there has
    /// old bytes.
    fn onto(&mut self) -> Onto {
        let onto = [Onto::Pipe, Onto::New, Onto::Forced][self.rng.below(3)];
        let (output, kept) = self.output();
        for file in [&output, &kept] {
            if file.exists() {
                fs::remove_file(file).expect("a file that can be removed");
            }
        }
        if onto == Onto::Forced {
            self.file("output", &OLD);
        }
        count(&mut self.ontos, onto, 1);
        onto
    }

    /// Runs a subcommand that reads these bytes in this way.
    fn run(&mut self, name: &str, options: &[String], bytes: &[u8], way: Way) -> Ran {
        let mut command = Command::new(program());
        let options = joined(&mut self.rng, options);
        command.arg(name).args(options).stderr(Stdio::piped());
        let input = self.file("input", bytes);
        match way {
            Way::Named => command.args(["--in", &input]).stdin(Stdio::null()),
            Way::Redirected => command.stdin(File::open(&input).expect("the file")),
            Way::Piped => command.stdin(Stdio::piped()),
        };
        let onto = self.onto();
        let (output, _) = self.output();
        match onto {
            Onto::Pipe => command.stdout(Stdio::piped()),
            Onto::New => command.arg("--out").arg(&output),
            Onto::Forced => command.arg("--force").arg("--out").arg(&output),
        };
        count(&mut self.runs, name.to_string(), 1);
        count(&mut self.ways, way, 1);
        let (status, ran) = feed(command, bytes, way);
        check_status(name, status, &ran.said);
        let written = self.written(onto, ran.written);
        let said = self.without_renaming(name, ran.said);
        Ran { written, said }
    }

    /// What is said but for the line that tells of an old file's new name, which
    /// has to stand there where it has one.
    fn without_renaming(&self, name: &str, said: Vec<String>) -> Vec<String> {
        let (output, kept) = self.output();
        let (from, to) = (output.display(), kept.display());
        let line = format!("barzhilup {name}: {from}: renamed to {to}");
        let (renamed, others): (Vec<String>, Vec<String>) =
            said.into_iter().partition(|said| *said == line);
        assert_eq!(renamed.len(), usize::from(kept.exists()), "{others:?}");
        others
    }

    /// What is written: to a pipe, or to a file. What stood in the file before
    /// has to be kept, under the other name if something is written. A file
    /// that is not made, or not touched, has nothing written to it.
    fn written(&self, onto: Onto, piped: Vec<u8>) -> Vec<u8> {
        let (output, kept) = self.output();
        match onto {
            Onto::Pipe => return piped,
            Onto::New => assert!(!kept.exists(), "{}", kept.display()),
            Onto::Forced => {
                let old = if kept.exists() { &kept } else { &output };
                assert!(fs::read(old).is_ok_and(|bytes| bytes == OLD), "{onto:?}");
                if old == &output {
                    return Vec::new();
                }
            }
        }
        assert!(piped.is_empty(), "{onto:?}");
        if !output.exists() {
            return Vec::new();
        }
        fs::read(&output).expect("the written file")
    }
}

impl Drop for Bench {
    /// Files of a test that failed are kept.
    fn drop(&mut self) {
        if !thread::panicking() {
            fs::remove_dir_all(&self.place).expect("files that can be removed");
        }
    }
}

/// Runs a command, and feeds the bytes to it if it reads a pipe. Answers its
/// exit status, too; none if a signal ended it.
fn feed(mut command: Command, bytes: &[u8], way: Way) -> (Option<i32>, Ran) {
    let mut child = command.spawn().expect("a program that starts");
    let feeder = child.stdin.take().filter(|_| way == Way::Piped);
    let fed = feeder.map(|mut pipe| {
        let bytes = bytes.to_vec();
        // A subcommand that stops early leaves the rest of the pipe.
        thread::spawn(move || pipe.write_all(&bytes).ok())
    });
    let output = child.wait_with_output().expect("a program that ends");
    if let Some(fed) = fed {
        fed.join().expect("the pipe is fed");
    }
    let ran = Ran {
        written: output.stdout,
        said: text_lines(output.stderr),
    };
    (output.status.code(), ran)
}

// Files.

/// A record: its length in two bytes, low byte first, and then its bytes.
fn record(item: &[u8]) -> Vec<u8> {
    let length = u16::try_from(item.len()).expect("a record's length");
    [&length.to_le_bytes(), item].concat()
}

fn each_record(items: &[Vec<u8>]) -> Vec<Vec<u8>> {
    items.iter().map(|item| record(item)).collect()
}

fn to_records(items: &[Vec<u8>]) -> Vec<u8> {
    each_record(items).concat()
}

/// The records of a file; it has to end after one.
fn from_records(bytes: &[u8]) -> Vec<Vec<u8>> {
    let mut items = Vec::new();
    let mut left = bytes;
    while !left.is_empty() {
        let length = usize::from(left[0]) + 256 * usize::from(left[1]);
        items.push(left[2..2 + length].to_vec());
        left = &left[2 + length..];
    }
    items
}

/// How many bytes the headers of an ADTS dump have.
#[derive(Clone, Copy, Debug, PartialEq, Eq, PartialOrd, Ord)]
enum Headers {
    Seven,
    Nine,
    Both,
}

/// A packet in an ADTS frame: the syncword, fields that say nothing here, and
/// the frame's length in thirteen bits; two more bytes if there is a check.
fn adts_frame(rng: &mut Rng, packet: &[u8], check: bool) -> Vec<u8> {
    let header = if check { 9 } else { 7 };
    let length = packet.len() + header;
    let mut frame = some_bytes(rng, header);
    frame[0] = 0xFF;
    frame[1] = 0xF0 | frame[1] & 8 | u8::from(!check);
    frame[3] = frame[3] & 0xFC | (length >> 11) as u8;
    frame[4] = (length >> 3) as u8;
    frame[5] = frame[5] & 0x1F | (length << 5) as u8;
    frame.extend(packet);
    frame
}

fn to_frames(rng: &mut Rng, packets: &[Vec<u8>], headers: Headers) -> Vec<Vec<u8>> {
    let frame = |packet: &Vec<u8>| {
        let check = match headers {
            Headers::Seven => false,
            Headers::Nine => true,
            Headers::Both => rng.below(2) == 0,
        };
        adts_frame(rng, packet, check)
    };
    packets.iter().map(frame).collect()
}

/// What an end is asked for: mode and stream, and what the register of the CRCs
/// starts at.
#[derive(Clone, Copy)]
struct End {
    line: Line,
    register: u8,
}

impl End {
    /// One with any register.
    fn new(rng: &mut Rng, line: Line) -> End {
        let register = [0, 255, rng.byte()][rng.below(3)];
        End { line, register }
    }

    /// The other end, once in a while with another register.
    fn other(&self, rng: &mut Rng) -> End {
        let differ = match rng.below(4) {
            0 => [0x80, 255, rng.nonzero_byte()][rng.below(3)],
            _ => 0,
        };
        End {
            register: self.register ^ differ,
            ..*self
        }
    }

    /// The options that ask for it.
    fn options(&self, rng: &mut Rng) -> Vec<String> {
        let mut options = Vec::new();
        option_but(rng, &mut options, "mode", self.line.mode, 0);
        option_but(rng, &mut options, "stream", self.line.stream, 0);
        option_but(rng, &mut options, "crc-start", self.register, 0);
        options
    }
}

// Packets to PDUs.

/// What is sent: packets, and how.
struct Sending {
    end: End,
    settings: Settings,
    psd: Vec<u8>,
    length: usize,
    packets: Vec<Vec<u8>>,
}

impl Sending {
    /// A random one that is right in every part.
    fn new(rng: &mut Rng, line: Line) -> Sending {
        let length = match rng.below(12) {
            0 => calls::longest(&line),
            1 => 1_024,
            _ => some_length(rng, &line),
        };
        let settings = some_settings(rng, &line, length);
        let most = most_psd(&line, &settings, length);
        let psd = [0, most, rng.within(0, most)][rng.below(3)];
        Sending {
            end: End::new(rng, line),
            settings,
            psd: some_bytes(rng, psd),
            length,
            packets: some_packets(rng, length),
        }
    }

    /// The options that ask for it; those that ask for nothing are left out
    /// at times.
    fn options(&self, bench: &mut Bench) -> Vec<String> {
        let rng = &mut bench.rng;
        let mut options = self.end.options(rng);
        let s = &self.settings;
        for (name, value) in [
            ("blend", s.blend),
            ("gain", s.gain),
            ("common-delay", s.common_delay),
            ("latency", s.latency),
        ] {
            option_but(rng, &mut options, name, value, 0);
        }
        option_but(rng, &mut options, "length", self.length, 1_024);
        options.extend(expansion_options(rng, s));
        if !self.psd.is_empty() || bench.rng.below(4) == 0 {
            option(&mut options, "psd", bench.file("psd", &self.psd));
        }
        options
    }

    /// The PDUs of the reference's writer, which is offered all packets from
    /// the unfinished one on; and the number of the refusal that ends them, 0
    /// if all are sent.
    fn pdus(&self) -> (Vec<Vec<u8>>, u32) {
        let End { line, register } = self.end;
        let opened = writer::open_with(line.mode, line.stream, register);
        let Ok(mut writer) = opened else {
            return (Vec::new(), opened.unwrap_err());
        };
        let lengths: Vec<u16> = self.packets.iter().map(|p| p.len() as u16).collect();
        let mut pdus = Vec::new();
        let mut ended = 0;
        while ended < lengths.len() {
            let mut pdu = vec![0xEE; self.length];
            let offer = Offer {
                settings: self.settings,
                psd: &self.psd,
                lengths: &lengths[ended..],
                bytes: &self.packets[ended..].concat(),
            };
            let answer = writer::write(writer, &offer, &mut pdu);
            if answer.refusal != 0 {
                return (pdus, answer.refusal);
            }
            ended += answer.ended;
            writer = answer.writer;
            pdus.push(pdu);
        }
        (pdus, 0)
    }

    /// What is said where so many packets are sent in so many PDUs.
    fn said(&self, packets: usize, pdus: usize) -> String {
        let octets: usize = self.packets[..packets].iter().map(Vec::len).sum();
        format!(
            "barzhilup generate: packets {packets} (bytes {octets}), PDUs {pdus} (bytes {})",
            pdus * self.length
        )
    }
}

/// The options for expansion fields. Of a field with two, one may be left out
/// if its value is 0.
fn expansion_options(rng: &mut Rng, s: &Settings) -> Vec<String> {
    let mut options = Vec::new();
    for (name, value) in [("class", s.class_code), ("program", s.program)] {
        if let Some(value) = value {
            option(&mut options, name, value);
        }
    }
    if s.displaced {
        options.push("--displacement".to_string());
    }
    let typed = s.program_type;
    let typed = typed.map(|f| [("access", f.access.into()), ("type", f.code.into())]);
    let applied = s.applied;
    let applied = applied.map(|f| [("services", f.services.into()), ("marker", f.marker)]);
    for pair in [typed, applied].into_iter().flatten() {
        let left_out = rng.below(3);
        for (at, (name, value)) in pair.into_iter().enumerate() {
            if value != 0u32 || left_out != at {
                option(&mut options, name, value);
            }
        }
    }
    options
}

/// Records of one length with anything in them.
fn some_records(rng: &mut Rng, many: usize, length: usize) -> Vec<Vec<u8>> {
    (0..many).map(|_| some_bytes(rng, length)).collect()
}

/// Packets of about one size, for up to sixty PDUs.
fn some_packets(rng: &mut Rng, length: usize) -> Vec<Vec<u8>> {
    let longest = [1, 3, 20, 100, 600, 4_096][rng.below(6)];
    let pdus = if length > 3_000 { 6 } else { 60 };
    let total = length * rng.below(pdus + 1);
    let mut packets = Vec::new();
    let mut size = 0;
    while size < total && packets.len() < 1_500 {
        let length = some_packet(rng, longest);
        size += usize::from(length);
        packets.push(some_bytes(rng, usize::from(length)));
    }
    packets
}

/// The options that may be past a limit where the writer refuses.
fn refused_options(refusal: u32) -> &'static [&'static str] {
    match refusal {
        3 | 17 => &["--length"],
        5 => &["--mode, --stream"],
        10 => &["--class", "--services", "--access", "--displacement"],
        14 => &[
            "--blend",
            "--gain",
            "--common-delay",
            "--latency",
            "--program",
            "--access",
            "--marker",
        ],
        16 => &["--psd"],
        other => panic!("refused with {other}"),
    }
}

/// Whether a line says a refusal, and names an option that may be past a limit.
fn is_refusal(line: &str, refusal: u32) -> bool {
    let before = format!("barzhilup generate: refused with {refusal}: ");
    let words = line.strip_prefix(before.as_str()).unwrap_or_default();
    refused_options(refusal)
        .iter()
        .any(|option| words.starts_with(option))
}

/// What was compared of the generated PDUs.
#[derive(Debug, Default)]
struct Sent {
    lines: Counts<(u8, u8)>,
    dumps: Counts<Headers>,
    drives: u64,
    packets: u64,
    pdus: u64,
    octets: u64,
    with_psd: u64,
    with_expansion: u64,
    /// With another register than 0.
    with_register: u64,
    /// PDUs with more pieces than have their locators in the header.
    many_pieces: u64,
}

impl Sent {
    fn count(&mut self, sending: &Sending, pdus: &[Vec<u8>]) {
        let line = sending.end.line;
        self.drives += 1;
        count(&mut self.lines, (line.mode, line.stream), 1);
        self.with_register += u64::from(sending.end.register != 0);
        let many = if line.locator_bits == 16 { 42 } else { 55 };
        let pieces = pdus.iter().map(|pdu| nop(pdu));
        self.many_pieces += pieces.filter(|&pieces| pieces >= many).count() as u64;
        let pdus = pdus.len();
        self.packets += sending.packets.len() as u64;
        self.pdus += pdus as u64;
        self.octets += (pdus * sending.length) as u64;
        self.with_psd += u64::from(!sending.psd.is_empty());
        self.with_expansion += u64::from(sending.settings.asks_for_expansion());
    }

    fn report(&self) {
        println!("generate, twice, equal to the writer's: {self:?}");
        assert_eq!(self.lines.len(), TABLE.len());
        assert_eq!(self.dumps.len(), 3);
        assert!(self.with_psd > 20 && self.with_expansion > 20);
        assert!(self.with_register > 100 && self.many_pieces > 100);
    }
}

/// Generates from packets in records, or in a dump: it has to write
/// these PDUs. Answers how it read them, and what it said.
fn send(
    bench: &mut Bench,
    sending: &Sending,
    (adts, bytes): (bool, &[u8]),
    pdus: &[Vec<u8>],
) -> (Way, Vec<String>) {
    let mut options = sending.options(bench);
    if adts {
        options.push("--adts".to_string());
    }
    let way = bench.way();
    let ran = bench.run("generate", &options, bytes, way);
    assert!(ran.written == to_records(pdus), "{way:?} {options:?}");
    (way, ran.said)
}

/// Generates from records and from a dump; both have to be the
/// writer's PDUs.
fn generated(bench: &mut Bench, sending: &Sending, sent: &mut Sent) -> Vec<Vec<u8>> {
    let (pdus, refusal) = sending.pdus();
    assert_eq!(refusal, 0, "a sending that is right");
    let headers = [Headers::Seven, Headers::Nine, Headers::Both][bench.rng.below(3)];
    let dump = to_frames(&mut bench.rng, &sending.packets, headers).concat();
    let wanted = [sending.said(sending.packets.len(), pdus.len())];
    for (adts, bytes) in [(false, to_records(&sending.packets)), (true, dump)] {
        let (_, said) = send(bench, sending, (adts, &bytes), &pdus);
        assert_eq!(said, wanted);
    }
    count(&mut sent.dumps, headers, 1);
    sent.count(sending, &pdus);
    pdus
}

// The channel.

/// What the channel is asked for.
#[derive(Clone, Copy, Debug)]
struct Road {
    seed: u32,
    loss: usize,
    burst: usize,
    damage: usize,
    bytes: usize,
}

impl Road {
    /// Mostly one on which headers can be mended.
    fn new(rng: &mut Rng) -> Road {
        Road {
            seed: rng.bits() as u32,
            loss: [0, 20, 50, 200, rng.within(0, 1_000), 1_000][rng.below(6)],
            burst: [1, 2, 4, rng.within(1, 64)][rng.below(4)],
            damage: [0, 500, rng.within(0, 1_000), 1_000][rng.below(4)],
            bytes: [0, 1, 4, 4, 4, 6, rng.within(0, 96)][rng.below(7)],
        }
    }

    fn options(&self) -> Vec<String> {
        let mut options = Vec::new();
        for (name, value) in [
            ("seed", self.seed as usize),
            ("loss", self.loss),
            ("burst", self.burst),
            ("damage", self.damage),
            ("bytes", self.bytes),
        ] {
            option(&mut options, name, value);
        }
        options
    }
}

/// What a road did, told from the files before and after it.
#[derive(Clone, Copy, Debug, Default, PartialEq, Eq)]
struct Damage {
    pdus: usize,
    missing: usize,
    lost: usize,
    damaged: usize,
    altered: usize,
}

impl Damage {
    /// Compares PDU by PDU.
    fn between(before: &[Vec<u8>], after: &[Vec<u8>], road: &Road) -> Damage {
        let mut damage = Damage::default();
        assert_eq!(before.len(), after.len(), "{road:?}");
        for (sent, came) in before.iter().zip(after) {
            damage.take(sent, came, road);
        }
        damage
    }

    /// An empty record stays so, another becomes empty or keeps its length and
    /// all bytes but some of its first 96.
    fn take(&mut self, sent: &[u8], came: &[u8], road: &Road) {
        self.pdus += 1;
        self.missing += usize::from(sent.is_empty());
        self.lost += usize::from(!sent.is_empty() && came.is_empty());
        if came.is_empty() {
            return;
        }
        let reach = sent.len().min(PLACES);
        assert_eq!(sent.len(), came.len(), "{road:?}");
        assert_eq!(sent[reach..], came[reach..], "{road:?}");
        let altered = (0..reach).filter(|&i| sent[i] != came[i]).count();
        assert!(altered <= road.bytes, "{altered}, {road:?}");
        if road.damage == 1_000 {
            assert!(altered > 0 || road.bytes == 0, "{road:?}");
        }
        self.damaged += usize::from(altered > 0);
        self.altered += altered;
    }

    /// What the road says of itself.
    fn said(&self) -> String {
        format!(
            "barzhilup channel: PDUs {} (lost before {}), lost {}, damaged {}, bytes altered {}",
            self.pdus, self.missing, self.lost, self.damaged, self.altered
        )
    }
}

/// What was compared of the channel's.
#[derive(Debug, Default)]
struct Travelled {
    drives: u64,
    /// Again with the same seed.
    again: u64,
    total: Damage,
}

impl Travelled {
    fn add(&mut self, damage: &Damage) {
        self.drives += 1;
        self.total.pdus += damage.pdus;
        self.total.missing += damage.missing;
        self.total.lost += damage.lost;
        self.total.damaged += damage.damaged;
        self.total.altered += damage.altered;
    }

    fn report(&self) {
        println!("channel, as it was asked: {self:?}");
        assert!(self.again > 20);
        assert!(self.total.missing > 100 && self.total.lost > 1_000);
    }
}

/// Sends PDUs over a road by the channel. Answers what comes through, and what
/// the road did; it has to say the same.
fn over(bench: &mut Bench, road: &Road, pdus: &[Vec<u8>], way: Way) -> (Vec<Vec<u8>>, Damage) {
    let ran = bench.run("channel", &road.options(), &to_records(pdus), way);
    let after = from_records(&ran.written);
    let damage = Damage::between(pdus, &after, road);
    assert_eq!(ran.said, [damage.said()], "{road:?}");
    (after, damage)
}

/// Sends PDUs over a road; some are marked lost before. Answers those that
/// come through.
fn travelled(bench: &mut Bench, sent: &[Vec<u8>], seen: &mut Travelled) -> Vec<Vec<u8>> {
    let road = Road::new(&mut bench.rng);
    let mut before = sent.to_vec();
    for pdu in &mut before {
        match bench.rng.below(40) {
            0 => pdu.clear(),
            1 => pdu.truncate(bench.rng.below(100)),
            _ => {}
        }
    }
    let way = bench.way();
    let (after, damage) = over(bench, &road, &before, way);
    assert!(road.loss > 0 || damage.lost == 0, "{road:?}");
    assert!(road.damage > 0 || damage.damaged == 0, "{road:?}");
    if road.loss == 1_000 {
        assert_eq!(damage.lost + damage.missing, damage.pdus, "{road:?}");
    }
    if bench.rng.below(3) == 0 {
        let (again, _) = over(bench, &road, &before, way);
        assert!(again == after, "the same seed, {road:?}");
        seen.again += 1;
    }
    seen.add(&damage);
    after
}

// Other PDUs than those of a drive.

/// A PDU with another control word, and the parity for it.
fn with_word(pdu: &mut [u8], change: impl FnOnce(&mut ControlWord)) {
    let place = control::FIRST..control::FIRST + control::BYTES;
    let mut word = control::decode(pdu[place.clone()].try_into().expect("six bytes"));
    change(&mut word);
    pdu[place].copy_from_slice(&control::encode(&word));
    with_parity(pdu);
}

/// How many pieces a PDU has: NOP, bits 6-1 of byte 12.
fn nop(pdu: &[u8]) -> usize {
    usize::from(pdu[12] >> 1 & 63)
}

fn with_parity(pdu: &mut [u8]) {
    let parity = header::parity(&header::header_of(pdu));
    pdu[..parity.len()].copy_from_slice(&parity);
}

/// A PDU with one piece from after its locator on.
fn piece_alone(end: &End, word: ControlWord, bytes: Vec<u8>) -> Vec<u8> {
    let line = end.line;
    let la = locators::last_byte(line.locator_bits, 1);
    let locator = la + 1 + bytes.len();
    let mut pdu = vec![0; PLACES.max(locator + 1)];
    let parts = Parts {
        control: ControlWord {
            mode: line.mode,
            stream: line.stream,
            nop: 1,
            la: la as u8,
            ..word
        },
        locator_bits: line.locator_bits,
        locators: vec![locator],
        register: end.register,
        pieces: vec![Piece {
            start: la + 1,
            bytes,
            crc_error: 0,
        }],
        ..Parts::default()
    };
    parts.encode(&mut pdu);
    pdu
}

/// Two PDUs with the parts of a packet that has about 4,096 bytes, or more.
fn long_packet(rng: &mut Rng, sent: &End) -> Vec<Vec<u8>> {
    let sequences = sent.line.sequences;
    let sequence = rng.below(usize::from(sequences)) as u8;
    let number = rng.below(64) as u8;
    let first = rng.within(2_000, 4_000);
    let second = [4_096 - first, 4_097 - first, rng.within(1, 3_000)][rng.below(3)];
    let beginning = ControlWord {
        sequence,
        plast: true,
        start: number,
        ..ControlWord::default()
    };
    let end = ControlWord {
        sequence: (sequence + 1) % sequences,
        pfirst: true,
        start: (number + 1) % 64,
        ..ControlWord::default()
    };
    vec![
        piece_alone(sent, beginning, some_bytes(rng, first)),
        piece_alone(sent, end, some_bytes(rng, second)),
    ]
}

/// A right PDU with anything in it.
fn any_pdu(rng: &mut Rng, end: &End) -> Vec<u8> {
    let wish = Wish {
        line: Some(end.line),
        length: Some(rng.within(PLACES, 900)),
        ..Wish::default()
    };
    let mut sample = Sample::new(rng, &wish);
    sample.parts.register = end.register;
    sample.encode(&vec![rng.byte(); sample.length])
}

/// A PDU whose displacement is before its last piece's end, or past its own.
fn wrongly_displaced(rng: &mut Rng, line: Line) -> Vec<u8> {
    let wish = Wish {
        line: Some(line),
        fields: Some(vec![Field::ProgramAndDisplacement(0, 0)]),
        length: Some(rng.within(PLACES, 900)),
        ..Wish::default()
    };
    let mut sample = Sample::new(rng, &wish);
    let wrong = [0, sample.end() - 1, sample.length][rng.below(3)];
    sample.set_displacement(wrong);
    sample.encode(&vec![0; sample.length])
}

/// A length that no PDU has, and that a record may have: a longer one than a PDU's stops the log.
fn wrong_length(rng: &mut Rng) -> usize {
    [1, 95, rng.within(1, 95)][rng.below(3)]
}

/// Makes something else of a PDU of at least 96 bytes, often one that is
/// refused.
fn spoil(rng: &mut Rng, pdu: &mut Vec<u8>, end: &End) {
    let any = |rng: &mut Rng, end: usize| rng.below(end) as u8;
    match rng.below(12) {
        0 => pdu.resize(wrong_length(rng), 0x5A),
        1 => rng.fill(&mut pdu[..PLACES]),
        2 => with_word(pdu, |word| {
            (word.mode, word.stream) = (any(rng, 16), any(rng, 4));
        }),
        3 => with_word(pdu, |word| word.sequence = any(rng, 8)),
        4 => with_word(pdu, |word| word.nop = any(rng, 64)),
        5 => with_word(pdu, |word| word.la = rng.byte()),
        6 => with_word(pdu, |word| word.expansion = !word.expansion),
        7 => {
            let place = rng.within(14, PLACES - 1);
            pdu[place] = rng.byte();
            with_parity(pdu);
        }
        8 => {
            let place = rng.below(pdu.len());
            pdu[place] ^= rng.nonzero_byte();
        }
        9 => *pdu = wrongly_displaced(rng, end.line),
        10 => with_word(pdu, |word| {
            (word.nop, word.pfirst, word.plast) = (0, rng.below(2) == 0, true);
        }),
        _ => *pdu = any_pdu(rng, end),
    }
}

/// A drive's PDUs with others among them: spoiled ones, ones of other modes,
/// ones that come twice or not at all, and long packets.
fn mixed(rng: &mut Rng, pdus: Vec<Vec<u8>>, end: &End) -> Vec<Vec<u8>> {
    let mut records = Vec::new();
    let few = [8, 30, 1_000][rng.below(3)];
    for mut pdu in pdus {
        match rng.below(few) {
            0 => {
                let line = TABLE[rng.below(TABLE.len())];
                let other = End { line, ..*end };
                records.push(any_pdu(rng, &other));
            }
            1 => records.push(pdu.clone()),
            2 => records.extend(long_packet(rng, end)),
            3 => continue,
            4..=6 if pdu.len() >= PLACES => spoil(rng, &mut pdu, end),
            _ => {}
        }
        records.push(pdu);
    }
    records
}

// PDUs to the log.

/// What becomes of a record.
enum Came {
    /// With how many bytes of its header mended.
    Received(u32),
    Lost,
    /// By number, with its k.
    Refused(u32, usize),
    /// With 6: the mode and the stream that came.
    Strange(u8, u8),
}

impl Came {
    fn is_refused(&self) -> bool {
        matches!(self, Came::Refused(..) | Came::Strange(..))
    }

    /// The number with which it is refused, 0 if it is not.
    fn refusal(&self) -> u32 {
        match self {
            Came::Refused(number, _) => *number,
            Came::Strange(..) => 6,
            _ => 0,
        }
    }

    /// The k of the first wrong locator; it counts with 11 only.
    fn k(&self) -> usize {
        match self {
            Came::Refused(_, k) => *k,
            _ => 0,
        }
    }
}

/// The packets delivered, and those missing between them (document 02, Ask 14).
#[derive(Clone, Copy, Debug, Default)]
struct Loss {
    delivered: usize,
    missing: usize,
    /// The number of the last packet delivered.
    last: Option<usize>,
}

impl Loss {
    /// The counts after a log's packets too: after the first, each adds its
    /// number minus the last one's minus 1, modulo 64, to those missing.
    fn after(mut self, entries: &[Entry]) -> Loss {
        for entry in entries {
            let Entry::Packet(number, _) = entry else {
                continue;
            };
            let number = usize::from(*number);
            self.missing += self.last.map_or(0, |last| (64 + number - last - 1) % 64);
            self.delivered += 1;
            self.last = Some(number);
        }
        self
    }
}

/// A record by the reference: what becomes of it, its log, and the packets
/// delivered and missing after it.
struct Logged {
    came: Came,
    length: usize,
    /// How many pieces it has, if it is received.
    pieces: usize,
    entries: Vec<Entry>,
    loss: Loss,
}

/// The packets delivered and missing after the last record.
fn last_loss(logged: &[Logged]) -> Loss {
    logged.last().map_or(Loss::default(), |one| one.loss)
}

/// Where what is missing is exact.
const EXACT: &str = "missing is exact from the first packet delivered to the last where each \
                     PDU comes or is marked lost once, in turn, and fewer than 64 packets are \
                     missing between two delivered";

/// A whole file by the reference. A refused PDU is marked lost.
fn heard(end: &End, records: &[Vec<u8>]) -> Vec<Logged> {
    let End { line, register } = *end;
    let opened = receiver::open_with(line.mode, line.stream, register);
    let mut receiver = opened.expect("a line of the table");
    let mut carry = vec![0; CARRY_BYTES];
    let mut log = vec![0; LOG_WORDS];
    let mut loss = Loss::default();
    let mut all = Vec::new();
    for record in records {
        let mut pdu = record.clone();
        let mut answer = if record.is_empty() {
            receiver::mark_lost(receiver, &mut log)
        } else {
            receiver::receive(receiver, &mut carry, &mut pdu, &mut log)
        };
        let came = came_of(record, &answer);
        if came.is_refused() {
            answer = receiver::mark_lost(receiver, &mut log);
        }
        receiver = answer.receiver;
        let pieces = match came {
            Came::Received(_) => nop(&pdu),
            _ => 0,
        };
        let entries = log::entries(&log[..answer.words]).expect("words of a log");
        loss = loss.after(&entries);
        all.push(Logged {
            came,
            length: record.len(),
            pieces,
            entries,
            loss,
        });
    }
    all
}

fn came_of(record: &[u8], answer: &receiver::Answer) -> Came {
    if ![0, 6].contains(&answer.refusal) {
        return Came::Refused(answer.refusal, answer.k());
    }
    if record.is_empty() {
        return Came::Lost;
    }
    let mended = header::correct(&header::header_of(record)).expect("a header that can be mended");
    if answer.refusal == 6 {
        let place = control::FIRST..control::FIRST + control::BYTES;
        let word = control::decode(mended.0[place].try_into().expect("six bytes"));
        return Came::Strange(word.mode, word.stream);
    }
    Came::Received(mended.1)
}

/// What the log says for a refusal's number.
fn refusal_words(number: u32) -> &'static str {
    match number {
        3 => "length not 96 to 20480",
        4 => "header beyond correction",
        5 => "mode and stream not in the table",
        6 => "mode and stream not those asked for",
        7 => "sequence outside its range",
        8 => "Pfirst or Plast with no piece",
        9 => "La out of place",
        10 => "wrong expansion",
        11 => "locator out of place",
        12 => "displacement out of place",
        other => panic!("refused with {other}"),
    }
}

fn note_words(cause: u32) -> &'static str {
    match cause {
        1 => "sequence",
        2 => "wrong CRC",
        3 => "nothing held",
        4 => "not continued",
        5 => "too long",
        6 => "lost",
        other => panic!("a note of cause {other}"),
    }
}

/// A refusal's words at the end of a line, with the k that comes with 11.
fn refused_line(beginning: &str, came: &Came) -> String {
    let line = format!("{beginning}{}", refusal_words(came.refusal()));
    match came.refusal() {
        11 => format!("{line} (k {})", came.k()),
        _ => line,
    }
}

/// The lines of a file in one of the two formats for reading. The CSV has a
/// last line if the file is whole.
fn lines(logged: &[Logged], csv: bool, whole: bool) -> Vec<String> {
    let mut lines = Vec::new();
    if csv {
        lines.push(COLUMNS.to_string());
    }
    for (pdu, one) in logged.iter().enumerate() {
        lines.push(if csv {
            columns(pdu, one)
        } else {
            sentence(pdu, one)
        });
        for entry in &one.entries {
            lines.push(if csv {
                entry_columns(pdu, entry)
            } else {
                entry_sentence(entry)
            });
        }
    }
    if csv && whole {
        lines.push(format!(",end,,,,,,,,whole,,,,,{}", logged.len()));
    }
    lines
}

/// The first line of the CSV.
const COLUMNS: &str = "pdu,kind,copy,corrected,refusal,packet,length,piece,note,cause,delivered,missing,crc32,text,pdus";

fn columns(pdu: usize, one: &Logged) -> String {
    let length = one.length;
    let line = match &one.came {
        Came::Received(mended) => format!("{pdu},received,,{mended},,,{length},,,"),
        Came::Lost => format!("{pdu},lost,,,,,,,,"),
        came => refused_line(
            &format!("{pdu},refused,,,{},,{length},,,", came.refusal()),
            came,
        ),
    };
    format!("{line},{},{},,,", one.loss.delivered, one.loss.missing)
}

fn entry_columns(pdu: usize, entry: &Entry) -> String {
    match entry {
        Entry::Packet(number, bytes) => {
            let crc = crc32(bytes);
            format!("{pdu},packet,,,,{number},{},,,,,,{crc:08x},,", bytes.len())
        }
        Entry::Psd(bytes) => {
            let (crc, text) = (crc32(bytes), psd_text(bytes));
            format!("{pdu},psd,,,,,{},,,,,,{crc:08x},{text},", bytes.len())
        }
        Entry::Note(note) => {
            let words = note_words(note.cause());
            let piece = match note.cause() {
                2 | 3 | 5 | 7 => note.piece().to_string(),
                _ => String::new(),
            };
            format!("{pdu},note,,,,,,{piece},{},{words},,,,,", note.cause())
        }
    }
}

/// CRC-32, bit by bit.
fn crc32(bytes: &[u8]) -> u32 {
    let mut register = u32::MAX;
    for byte in bytes {
        register ^= u32::from(*byte);
        for _ in 0..8 {
            let leaves = register & 1;
            register = (register >> 1) ^ (leaves * 0xEDB8_8320);
        }
    }
    !register
}

/// What of PSD is text, as a field of the CSV: runs of printable characters, of
/// which three or more are ASCII, or all that there is, in UTF-8 or ISO 8859-1,
/// at most 200 bytes.
fn psd_text(bytes: &[u8]) -> String {
    let bytes = &bytes[..bytes.len().min(1024)];
    let is_text = |run: &&[u8]| {
        let plain = run.iter().filter(|byte| byte.is_ascii()).count();
        plain >= 3 || (plain == bytes.len() && plain > 0)
    };
    let runs: Vec<String> = bytes
        .split(|&byte| byte < 32 || byte == 127)
        .filter(is_text)
        .map(unicode)
        .collect();
    let mut text = runs.join(" ");
    let end = (0..=text.len().min(200)).rfind(|&end| text.is_char_boundary(end));
    text.truncate(end.unwrap_or(0));
    if text.is_empty() {
        return text;
    }
    let blank = if text.starts_with(['=', '+', '-', '@']) {
        " "
    } else {
        ""
    };
    format!("\"{blank}{}\"", text.replace('"', "\"\""))
}

/// A run of UTF-8, or else of ISO 8859-1, where 128 to 159 are no characters.
fn unicode(run: &[u8]) -> String {
    let letter = |&byte: &u8| match byte {
        128..=159 => ' ',
        _ => char::from(byte),
    };
    std::str::from_utf8(run).map_or_else(|_| run.iter().map(letter).collect(), str::to_string)
}

/// A number of things.
fn things(number: usize, name: &str) -> String {
    format!("{number} {name}{}", if number == 1 { "" } else { "s" })
}

fn sentence(pdu: usize, one: &Logged) -> String {
    match &one.came {
        Came::Received(mended) => {
            let bytes = things(*mended as usize, "header byte");
            format!("PDU {pdu}: received, {bytes} corrected")
        }
        Came::Lost => format!("PDU {pdu}: lost"),
        came => refused_line(
            &format!("PDU {pdu}: refused with {}: ", came.refusal()),
            came,
        ),
    }
}

fn entry_sentence(entry: &Entry) -> String {
    match entry {
        Entry::Packet(number, bytes) => {
            format!("  packet {number}, {}", things(bytes.len(), "byte"))
        }
        Entry::Psd(bytes) => format!("  PSD, {}", things(bytes.len(), "byte")),
        Entry::Note(note) => {
            let words = note_words(note.cause());
            match note.cause() {
                2 | 3 | 5 => format!("  note: {words}, piece {}", note.piece()),
                _ => format!("  note: {words}"),
            }
        }
    }
}

/// Counts of a drive's log.
#[derive(Debug, Default)]
struct Tally {
    pdus: usize,
    received: usize,
    lost: usize,
    headers: usize,
    mended: usize,
    /// Of those received.
    pieces: usize,
    packets: usize,
    psd: usize,
    refused: Counts<u32>,
    notes: Counts<u32>,
}

impl Tally {
    fn of(logged: &[Logged]) -> Tally {
        let mut tally = Tally::default();
        tally.take(logged);
        tally
    }

    fn take(&mut self, logged: &[Logged]) {
        self.pdus += logged.len();
        for one in logged {
            self.pieces += one.pieces;
            match &one.came {
                Came::Received(mended) => {
                    self.received += 1;
                    self.headers += usize::from(*mended > 0);
                    self.mended += *mended as usize;
                }
                Came::Lost => self.lost += 1,
                came => count(&mut self.refused, came.refusal(), 1),
            }
            for entry in &one.entries {
                match entry {
                    Entry::Packet(..) => self.packets += 1,
                    Entry::Psd(_) => self.psd += 1,
                    Entry::Note(note) => count(&mut self.notes, note.cause(), 1),
                }
            }
        }
    }

    /// Whether PDUs were refused, and none was received.
    fn is_none_received(&self) -> bool {
        self.received == 0 && !self.refused.is_empty()
    }

    /// How many pieces have a wrong CRC, note 2, and how many a right one.
    fn crcs(&self) -> (u64, u64) {
        let wrong = self.notes.get(&2).copied().unwrap_or(0);
        (wrong, self.pieces as u64 - wrong)
    }

    /// Whether pieces were received, and each of them has a wrong CRC.
    fn is_all_wrong(&self) -> bool {
        let (wrong, right) = self.crcs();
        wrong > 0 && right == 0
    }

    /// Whether more than 16 pieces have a wrong CRC for each that has a right one.
    fn is_nearly_all_wrong(&self) -> bool {
        let (wrong, right) = self.crcs();
        right > 0 && wrong > 16 * right
    }

    /// The lines of the log's summary.
    fn said(&self) -> Vec<String> {
        let refused: u64 = self.refused.values().sum();
        let notes: u64 = self.notes.values().sum();
        let mut said = vec![format!(
            "barzhilup log: PDUs {}: received {}, lost {}, refused {refused}",
            self.pdus, self.received, self.lost
        )];
        for (&number, count) in &self.refused {
            let words = refusal_words(number);
            said.push(format!(
                "barzhilup log:   refused with {number} ({words}): {count}"
            ));
        }
        said.push(format!(
            "barzhilup log: headers corrected {}, bytes corrected {}",
            self.headers, self.mended
        ));
        said.push(format!(
            "barzhilup log: packets {}, PSD entries {}, notes {notes}",
            self.packets, self.psd
        ));
        for (&cause, count) in &self.notes {
            said.push(format!(
                "barzhilup log:   note {}: {count}",
                note_words(cause)
            ));
        }
        said
    }
}

/// What was compared of the logs.
#[derive(Debug, Default)]
struct Reading {
    drives: u64,
    words: u64,
    lines: u64,
    /// Drives of which it is said that all CRCs were wrong, or nearly all.
    all_wrong: u64,
    nearly_all_wrong: u64,
    total: Tally,
}

impl Reading {
    fn report(&self) {
        println!("log, in three formats, equal to the receiver's: {self:?}");
        assert!(self.all_wrong > 20 && self.all_wrong < self.drives / 2);
        assert!(self.total.refused.keys().copied().eq(3..=12));
        assert!(self.total.notes.keys().copied().eq(1..=6));
    }
}

/// How many refused PDUs are said each in a line.
const REFUSED_LINES: usize = 5;

/// What is said of a refused PDU: that of another mode or stream is told with
/// those that came.
fn refused_said(pdu: usize, one: &Logged) -> String {
    let came = match one.came {
        Came::Strange(mode, stream) => format!(" (mode {mode}, stream {stream} came)"),
        _ => String::new(),
    };
    format!("barzhilup log: {}{came}", sentence(pdu, one))
}

/// What is said of the refused PDUs: the first ones and the first of another
/// mode or stream have a line each, and after the first ones it is said that
/// others are only counted.
fn refusals_said(logged: &[Logged]) -> Vec<String> {
    let refused: Vec<(usize, &Logged)> = logged
        .iter()
        .enumerate()
        .filter(|(_, one)| one.came.is_refused())
        .collect();
    let strange = refused.iter().position(|(_, one)| one.came.refusal() == 6);
    let mut said = Vec::new();
    for (before, &(pdu, one)) in refused.iter().enumerate() {
        if before < REFUSED_LINES || strange == Some(before) {
            said.push(refused_said(pdu, one));
        }
        if before == REFUSED_LINES {
            said.push("barzhilup log: further refused PDUs are counted only".to_string());
        }
    }
    said
}

/// What is said on standard error: the refused PDUs, the counts, the packets
/// delivered and missing, and, where PDUs were refused and none was received,
/// whether the file is of this mode and stream; where all CRCs were wrong, or
/// nearly all, whether they start at this register.
fn log_said(end: &End, logged: &[Logged]) -> Vec<String> {
    let line = end.line;
    let tally = Tally::of(logged);
    let mut said = refusals_said(logged);
    said.extend(tally.said());
    let loss = last_loss(logged);
    said.push(format!(
        "barzhilup log: delivered {}, missing {}; {EXACT}",
        loss.delivered, loss.missing
    ));
    if tally.is_none_received() {
        said.push(format!(
            "barzhilup log: no PDU was received: is this a file of PDUs of mode {}, stream {}?",
            line.mode, line.stream
        ));
    }
    let many = if tally.is_all_wrong() {
        Some("all")
    } else {
        tally.is_nearly_all_wrong().then_some("nearly all")
    };
    if let Some(many) = many {
        said.push(format!(
            "barzhilup log: {many} CRCs were wrong: is {} the start of this file's CRCs (--crc-start)?",
            end.register
        ));
    }
    said
}

/// Compares line by line.
fn check_lines(lines: &[String], wanted: &[String], options: &[String]) {
    for (at, (line, wanted)) in lines.iter().zip(wanted).enumerate() {
        assert_eq!(line, wanted, "line {at}, {options:?}");
    }
    assert_eq!(lines.len(), wanted.len(), "{options:?}");
}

/// Logs a file in each format, and compares. Answers the CSV.
fn logged(bench: &mut Bench, end: &End, records: &[Vec<u8>], seen: &mut Reading) -> Vec<u8> {
    let wanted = heard(end, records);
    let file = to_records(records);
    let mut csv = Vec::new();
    for format in ["words", "text", "csv"] {
        let mut options = end.options(&mut bench.rng);
        option_but(&mut bench.rng, &mut options, "format", format, "text");
        let way = bench.way();
        let ran = bench.run("log", &options, &file, way);
        check_lines(&ran.said, &log_said(end, &wanted), &options);
        if format == "words" {
            let words: Vec<u32> = wanted
                .iter()
                .flat_map(|one| log::words(&one.entries))
                .collect();
            let bytes: Vec<u8> = words.iter().flat_map(|word| word.to_le_bytes()).collect();
            assert!(ran.written == bytes, "words {way:?} {options:?}");
            seen.words += words.len() as u64;
            continue;
        }
        let text = text_lines(ran.written.clone());
        check_lines(&text, &lines(&wanted, format == "csv", true), &options);
        seen.lines += text.len() as u64;
        csv = ran.written;
    }
    seen.drives += 1;
    seen.all_wrong += u64::from(Tally::of(&wanted).is_all_wrong());
    seen.nearly_all_wrong += u64::from(Tally::of(&wanted).is_nearly_all_wrong());
    seen.total.take(&wanted);
    csv
}

// The coverage picture.

/// An attribute of the element in a line; nothing if it has none.
fn attribute<'a>(line: &'a str, name: &str) -> &'a str {
    let beginning = format!(" {name}=\"");
    let from = line.find(&beginning).map(|at| at + beginning.len());
    from.map_or("", |from| line[from..].split('"').next().unwrap_or(""))
}

/// The words in an element.
fn content(line: &str) -> String {
    let from = line.find('>').expect("a tag's end") + 1;
    let to = line.rfind("</").expect("an element's end");
    line[from..to].to_string()
}

/// A rectangle of a class.
#[derive(Clone, Debug)]
struct Rectangle {
    class: String,
    x: usize,
    y: usize,
    width: usize,
    height: usize,
}

impl Rectangle {
    fn of(line: &str) -> Rectangle {
        let number = |name| attribute(line, name).parse().expect("a number");
        Rectangle {
            class: attribute(line, "class").to_string(),
            x: number("x"),
            y: number("y"),
            width: number("width"),
            height: number("height"),
        }
    }
}

/// The classes of cells.
const CELLS: [&str; 7] = ["r", "c1", "c2", "c3", "c4", "l", "f"];

/// What a picture shows, by PDU.
#[derive(Default)]
struct Picture {
    cells: Vec<Rectangle>,
    /// Crosses and strokes in cells.
    marks: Vec<usize>,
    /// Those with pieces that have a wrong CRC.
    wrong: Vec<usize>,
    /// Those that are marked as having come twice, and out of turn.
    twice: Vec<usize>,
    late: Vec<usize>,
    bars: BTreeMap<usize, Rectangle>,
    /// What is written where packets are missing.
    missing: BTreeMap<usize, String>,
    /// The cells of the legend.
    swatches: Vec<String>,
    /// The totals, by their place from above: words, a number, a share.
    totals: BTreeMap<usize, Vec<String>>,
}

/// From where on the legend has totals.
const TOTALS: usize = 400;

impl Picture {
    fn of(svg: &str) -> Picture {
        let mut picture = Picture::default();
        let mut below = false;
        for line in svg.lines() {
            below |= attribute(line, "class") == "v";
            picture.take(line, below);
        }
        picture
    }

    /// An element of the rows, which belongs to the PDU of the last cell, or
    /// one of the legend below them.
    fn take(&mut self, line: &str, below: bool) {
        let pdu = self.cells.len().wrapping_sub(1);
        let tag = line.split(' ').next().unwrap_or("");
        match (tag, attribute(line, "class"), below) {
            ("<rect", class, false) if CELLS.contains(&class) => {
                self.cells.push(Rectangle::of(line));
            }
            ("<rect", "b", false) => {
                let before = self.bars.insert(pdu, Rectangle::of(line));
                assert!(before.is_none(), "two bars for PDU {pdu}");
            }
            ("<path", "x", false) => self.marks.push(pdu),
            ("<circle", "w", false) => self.wrong.push(pdu),
            ("<text", "d", false) => self.twice.push(pdu),
            ("<path", "d", false) => self.late.push(pdu),
            ("<text", "n" | "o" | "k", false) => {
                assert!(self.missing.insert(pdu, content(line)).is_none());
            }
            ("<rect", class, true) if CELLS.contains(&class) => {
                self.swatches.push(class.to_string());
            }
            ("<text", "t" | "e" | "z", true) => self.take_total(line),
            _ => {}
        }
    }

    /// Words or a number of the legend; those of the totals stand on the right.
    fn take_total(&mut self, line: &str) {
        let place = |name| attribute(line, name).parse().expect("a number");
        let (x, y): (usize, usize) = (place("x"), place("y"));
        if x > TOTALS {
            self.totals.entry(y).or_default().push(content(line));
        }
    }
}

/// What a picture has to show, by PDU.
#[derive(Default)]
struct Shown {
    classes: Vec<&'static str>,
    /// Pieces with a wrong CRC.
    wrong: Vec<usize>,
    packets: Vec<usize>,
    /// After the last one, by the record, and with each packet counted once.
    record: Loss,
    loss: Loss,
    /// What the packets' places tell.
    placed: Placed,
}

/// Where the packets of a log lie, by what its PDUs look like.
#[derive(Default)]
struct Placed {
    /// What is likely missing beyond what numbers tell, and the packets that
    /// end in ten PDUs, by which it is known.
    hidden: usize,
    pace: usize,
    /// PDUs that look as if they came twice, and out of turn.
    twice: Vec<usize>,
    late: Vec<usize>,
    /// By how much the record's delivered and missing are too high for these.
    again: usize,
    excess: usize,
    /// How many are missing before the packets of each PDU.
    ticks: Vec<usize>,
}

/// What a PDU says of the gap that it lies in.
struct Beside {
    absent: bool,
    clean: bool,
    packets: Vec<usize>,
    /// The bytes of the last packet.
    bytes: Vec<u8>,
    /// Notes that tell of a packet that was not delivered, before the first
    /// that was, and after the last.
    before: usize,
    after: usize,
    /// Whether its sequence does not follow.
    broken: bool,
    /// Whether a packet has no other part.
    parted: bool,
}

impl Beside {
    fn of(one: &Logged) -> Beside {
        let mut beside = Beside {
            absent: !matches!(one.came, Came::Received(_)),
            clean: matches!(one.came, Came::Received(_)),
            packets: Vec::new(),
            bytes: Vec::new(),
            before: 0,
            after: 0,
            broken: false,
            parted: false,
        };
        for entry in &one.entries {
            match entry {
                Entry::Packet(number, bytes) => {
                    beside.packets.push(usize::from(*number));
                    beside.bytes.clone_from(bytes);
                    beside.after = 0;
                }
                Entry::Psd(_) => {}
                Entry::Note(note) => beside.take_note(note.cause()),
            }
        }
        beside
    }

    fn take_note(&mut self, cause: u32) {
        self.clean = false;
        self.broken |= cause == 1;
        self.parted |= cause == 3 || cause == 4;
        self.absent |= cause == 8;
        if [2, 3, 5, 7].contains(&cause) {
            self.before += usize::from(self.packets.is_empty());
            self.after += 1;
        }
    }
}

/// How many packets end in so many PDUs, where so many end in others.
fn ended_in(pdus: usize, clean: usize, packets: usize) -> usize {
    let slow = (clean << 20).checked_div(packets).unwrap_or(0);
    ((pdus << 20) + slow / 2).checked_div(slow).unwrap_or(0)
}

/// The count that fits what numbers tell and is nearest to a wanted one.
fn nearest(told: usize, wanted: usize) -> usize {
    let fits = (0..).map(|k| told + 64 * k);
    let near = fits.take_while(|&fit| fit <= wanted.max(told) + 64);
    let near = near.min_by_key(|&fit| (fit.abs_diff(wanted), usize::MAX - fit));
    near.unwrap_or(told)
}

/// What is known before a PDU. Packets have places, which are numbers that go
/// on after 63.
struct Reached {
    /// The places of the last packet and of the farthest, and the last's bytes.
    last: usize,
    front: usize,
    bytes: Vec<u8>,
    /// The places of a gap that lost PDUs do not account for.
    hole: Range<usize>,
}

impl Reached {
    /// The first place from one on that a number has.
    fn place(from: usize, number: usize) -> usize {
        from + (number + 64 - from % 64) % 64
    }

    /// Whether a PDU looks as if it came twice, after no absent one.
    fn is_twice(&self, one: &Beside) -> bool {
        let alike = one.packets.last() == Some(&(self.last % 64)) && one.bytes == self.bytes;
        one.broken && alike
    }

    /// Where a PDU's packets begin and end that came out of turn, after no
    /// absent one; nothing if it does not look like that.
    fn late(&self, one: &Beside) -> Option<(usize, usize)> {
        let (first, end) = (one.packets[0], one.packets[one.packets.len() - 1]);
        let follows = (self.last + 1) % 64 == first;
        let from = Reached::place(self.hole.start, first);
        let to = Reached::place(from, end);
        ((one.broken || one.parted || !follows) && to < self.hole.end).then_some((from, to))
    }
}

/// Where the packets of a log lie (docs/USING.md, "About, and at least" and
/// "PDUs that came twice or out of turn"), PDU by PDU.
#[derive(Default)]
struct Placing {
    /// PDUs with nothing wrong, and the packets that end in them.
    clean: usize,
    packets: usize,
    /// Absent PDUs and notes since the last packet.
    absent: usize,
    notes: usize,
    reached: Option<Reached>,
    delivered: BTreeSet<usize>,
    placed: Placed,
}

impl Placing {
    fn of(logged: &[Logged]) -> Placed {
        let all: Vec<Beside> = logged.iter().map(Beside::of).collect();
        let clean = all.iter().filter(|one| one.clean);
        let mut placing = Placing {
            clean: clean.clone().count(),
            packets: clean.map(|one| one.packets.len()).sum(),
            ..Placing::default()
        };
        for (pdu, one) in all.iter().enumerate() {
            placing.take(pdu, one);
        }
        let mut placed = placing.placed;
        placed.pace = ended_in(10, placing.clean, placing.packets);
        placed.excess = excess(&placing.delivered, placed.hidden, last_loss(logged));
        placed
    }

    fn take(&mut self, pdu: usize, one: &Beside) {
        self.placed.ticks.push(0);
        if one.packets.is_empty() {
            self.absent += usize::from(one.absent);
            self.notes += if one.absent { 0 } else { one.after };
            return;
        }
        let alone = self.absent == 0;
        match self.reached.take() {
            None => self.begin(pdu, one),
            Some(before) if alone && before.is_twice(one) => {
                self.placed.twice.push(pdu);
                self.placed.again += one.packets.len();
                self.reached = Some(before);
            }
            Some(before) => match before.late(one).filter(|_| alone) {
                Some((from, to)) => self.fill(pdu, one, before, from, to),
                None => self.go_on(pdu, one, &before),
            },
        }
        (self.absent, self.notes) = (0, one.after);
    }

    /// The first packets. There are places before them, for a PDU out of turn.
    fn begin(&mut self, pdu: usize, one: &Beside) {
        let (from, to) = span(128 + one.packets[0], one);
        self.placed.ticks[pdu] = to - from + 1 - one.packets.len();
        self.reach(one, from, to, to, from - 24..from);
    }

    /// Packets out of turn.
    fn fill(&mut self, pdu: usize, one: &Beside, before: Reached, from: usize, to: usize) {
        self.placed.late.push(pdu);
        self.reach(one, from, to, before.front, to + 1..before.hole.end);
    }

    /// Packets after all others.
    fn go_on(&mut self, pdu: usize, one: &Beside, before: &Reached) {
        let lost = ended_in(self.absent, self.clean, self.packets);
        let wanted = lost + self.notes + one.before;
        let told = Reached::place(before.front + 1, one.packets[0]) - before.front - 1;
        let near = nearest(told, wanted);
        let (from, to) = span(before.front + 1 + near, one);
        self.placed.hidden += near - told;
        self.placed.ticks[pdu] = near + to - from + 1 - one.packets.len();
        let is_hole = told > wanted + ended_in(1, self.clean, self.packets) / 2;
        let hole = if is_hole { from - told..from } else { 0..0 };
        self.reach(one, from, to, to, hole);
    }

    /// What is known after a PDU's packets.
    fn reach(&mut self, one: &Beside, from: usize, to: usize, front: usize, hole: Range<usize>) {
        let mut place = from;
        for &number in &one.packets {
            place = Reached::place(place, number);
            self.delivered.insert(place);
        }
        self.reached = Some(Reached {
            last: to,
            front,
            bytes: one.bytes.clone(),
            hole,
        });
    }
}

/// The places of a PDU's packets, from a place on that is the first one's.
fn span(from: usize, one: &Beside) -> (usize, usize) {
    let end = one.packets[one.packets.len() - 1];
    (from, Reached::place(from, end))
}

/// By how much the record's missing is higher than what is missing among
/// places, without what is hidden.
fn excess(delivered: &BTreeSet<usize>, hidden: usize, record: Loss) -> usize {
    let (Some(first), Some(last)) = (delivered.first(), delivered.last()) else {
        return 0;
    };
    record.missing + hidden - (last - first + 1 - delivered.len())
}

/// How many of a whole in per cent with one decimal; nothing of nothing.
fn share(part: usize, whole: usize) -> Option<String> {
    let tenths = (part * 1_000 + whole / 2).checked_div(whole)?;
    Some(format!("{}.{} %", tenths / 10, tenths % 10))
}

impl Shown {
    fn of(logged: &[Logged]) -> Shown {
        let mut shown = Shown::default();
        for one in logged {
            let before = shown.loss;
            let is_wrong = |entry: &&Entry| matches!(entry, Entry::Note(note) if note.cause() == 2);
            let wrong = one.entries.iter().filter(is_wrong).count();
            shown.classes.push(match one.came {
                Came::Received(mended) => CELLS[mended as usize],
                Came::Lost => "l",
                _ => "f",
            });
            shown.wrong.push(wrong);
            shown.packets.push(one.loss.delivered - before.delivered);
            shown.loss = one.loss;
        }
        shown.record = shown.loss;
        shown.placed = Placing::of(logged);
        shown.loss.delivered -= shown.placed.again;
        shown.loss.missing -= shown.placed.excess;
        shown
    }

    fn many(&self, classes: &[&str]) -> usize {
        let among = |class: &&&str| classes.contains(*class);
        self.classes.iter().filter(among).count()
    }

    /// How many PDUs there are, are received, corrected, lost and refused; how
    /// many pieces have a wrong CRC; how many packets are delivered and
    /// missing.
    fn counts(&self) -> [usize; 8] {
        [
            self.classes.len(),
            self.many(&CELLS[..5]),
            self.many(&CELLS[1..5]),
            self.many(&["l"]),
            self.many(&["f"]),
            self.wrong.iter().sum(),
            self.loss.delivered,
            self.loss.missing,
        ]
    }

    /// The legend's words with their numbers, and the shares of those.
    fn totals(&self) -> Vec<Vec<String>> {
        let counts = self.counts();
        let (all, received) = ((counts[0], "of PDUs"), (counts[1], "of the received"));
        let both = (counts[6] + counts[7], "of both");
        let total = |((words, whole), number): ((&str, (usize, &str)), usize)| {
            let mut row = vec![words.to_string(), number.to_string()];
            if let Some(share) = share(number, whole.0) {
                row.extend([share, whole.1.to_string()]);
            }
            row
        };
        let words = [
            ("PDUs", (0, "")),
            ("received", all),
            ("of these corrected", received),
            ("lost", all),
            ("refused", all),
            ("wrong CRCs", (0, "")),
            ("packets delivered", (0, "")),
            ("missing", both),
        ];
        let mut rows: Vec<Vec<String>> = words.into_iter().zip(counts).map(total).collect();
        if self.placed.hidden > 0 {
            let about = counts[7] + self.placed.hidden;
            rows[7] = total((
                ("missing, about", (both.0 + self.placed.hidden, both.1)),
                about,
            ));
            rows.push(total((("missing, at least", both), counts[7])));
        }
        rows
    }

    /// What is said of missing, and what that is.
    fn said_missing(&self) -> [String; 2] {
        let (missing, both) = (self.loss.missing, self.loss.delivered + self.loss.missing);
        let of = |part, whole| {
            share(part, whole).map_or(String::new(), |share| format!(" ({share} of both)"))
        };
        let certain = format!("{missing}{}", of(missing, both));
        if self.placed.hidden == 0 {
            return [certain, EXACT.to_string()];
        }
        let about = missing + self.placed.hidden;
        let share = of(about, both + self.placed.hidden);
        [
            format!("about {about}{share}, at least {certain}"),
            format!(
                "at least is what packet numbers tell, which repeat after 64; about takes, \
                 between each two packets delivered, the count that fits the numbers and is \
                 nearest to {}.{} packets for each PDU lost, refused or withheld there",
                self.placed.pace / 10,
                self.placed.pace % 10
            ),
        ]
    }

    /// What is said on standard error.
    fn said(&self, columns: usize) -> Vec<String> {
        let [all, received, corrected, lost, refused, crcs, delivered, _] = self.counts();
        let [missing, meaning] = self.said_missing();
        let of = |part, whole, words| {
            share(part, whole).map_or(String::new(), |share| format!(" ({share} {words})"))
        };
        let received_share = of(received, all, "of PDUs");
        let corrected_share = of(corrected, received, "of the received");
        let mut lines = vec![
            format!(
                "barzhilup coverage: PDUs {all}: received {received}{received_share}, \
                 of these corrected {corrected}{corrected_share}, lost {lost}, refused {refused}; \
                 wrong CRCs {crcs}; packets delivered {delivered}, missing {missing}"
            ),
            format!(
                "barzhilup coverage: withheld packets and those with a damaged piece \
                 count as missing; {meaning}"
            ),
        ];
        let (twice, late) = (self.placed.twice.len(), self.placed.late.len());
        if twice + late > 0 {
            lines.push(format!(
                "barzhilup coverage: PDUs that look as if they came twice: {twice}, out of turn: \
                 {late}; their packets are counted once here, by what they look like; the \
                 receiver's record counts them again: delivered {}, missing {}",
                self.record.delivered, self.record.missing
            ));
        }
        let rows = all.div_ceil(columns);
        if rows > 60 {
            lines.insert(
                0,
                format!(
                    "barzhilup coverage: --rows: not given, so the picture has all rows: {rows}; \
                     --rows N draws a page of N rows, --page K another one, --format html pages \
                     to print"
                ),
            );
        }
        lines
    }

    /// What is written at a PDU's tick: how many are missing before it.
    fn tick(&self, pdu: usize) -> Option<String> {
        let missing = self.placed.ticks[pdu];
        (missing > 0).then(|| missing.to_string())
    }

    /// One cell for each PDU, in its class and in its place; the marks of lost
    /// and refused ones; and the legend.
    fn check_cells(&self, picture: &Picture, columns: usize, size: (usize, usize)) {
        let cells = &picture.cells;
        let classes: Vec<&str> = cells.iter().map(|cell| cell.class.as_str()).collect();
        assert_eq!(classes, self.classes);
        assert_eq!(picture.swatches, CELLS);
        let wrong: Vec<usize> = (0..classes.len())
            .filter(|&pdu| self.wrong[pdu] > 0)
            .collect();
        assert_eq!(picture.wrong, wrong);
        assert_eq!(picture.twice, self.placed.twice);
        assert_eq!(picture.late, self.placed.late);
        let marked = |&pdu: &usize| ["l", "f"].contains(&self.classes[pdu]);
        let marked: Vec<usize> = (0..classes.len()).filter(marked).collect();
        assert_eq!(picture.marks, marked);
        let Some(first) = cells.first() else {
            return;
        };
        let across = cells.get(1).map_or(first.width, |cell| cell.x - first.x);
        let down = cells
            .get(columns)
            .map_or(first.height, |cell| cell.y - first.y);
        assert!(across >= first.width && down >= first.height);
        for (pdu, cell) in cells.iter().enumerate() {
            let place = (
                first.x + pdu % columns * across,
                first.y + pdu / columns * down,
            );
            assert_eq!((cell.x, cell.y), place, "PDU {pdu}");
            assert_eq!((cell.width, cell.height), (first.width, first.height));
            assert!(cell.x + cell.width <= size.0 && cell.y + cell.height <= size.1);
        }
    }

    /// A bar under each PDU that delivered packets, by how many; and numbers
    /// where some are missing.
    fn check_packets(&self, picture: &Picture) {
        let most = self.packets.iter().copied().max().unwrap_or(0);
        let full = picture
            .bars
            .values()
            .map(|bar| bar.height)
            .max()
            .unwrap_or(0);
        for (pdu, cell) in picture.cells.iter().enumerate() {
            let packets = self.packets[pdu];
            let bar = picture.bars.get(&pdu);
            assert_eq!(bar.is_some(), packets > 0, "PDU {pdu}");
            if let Some(bar) = bar {
                assert_eq!(bar.height, (packets * full / most).max(1), "PDU {pdu}");
                assert_eq!((bar.x, bar.width), (cell.x, cell.width), "PDU {pdu}");
                // All stand on the strip's ground, below the cells.
                let bottom = bar.y + bar.height;
                assert_eq!(bottom - cell.y, cell.height + 3 + full, "PDU {pdu}");
            }
            assert_eq!(
                picture.missing.get(&pdu),
                self.tick(pdu).as_ref(),
                "PDU {pdu}"
            );
        }
    }
}

/// Titles, and how they stand in the picture.
const TITLES: [(&str, &str); 4] = [
    ("Sample drive", "Sample drive"),
    (
        "A & B <c> \"d\" 'e'",
        "A &amp; B &lt;c&gt; &quot;d&quot; &#39;e&#39;",
    ),
    ("Straße 5 — 日本", "Straße 5 — 日本"),
    ("tab\there", "tab here"),
];

/// What was compared of the coverage's.
#[derive(Debug, Default)]
struct Drawn {
    drives: u64,
    cells: Counts<&'static str>,
    bars: u64,
    ticks: u64,
    delivered: u64,
    missing: u64,
    wrong: u64,
    twice: u64,
    late: u64,
}

impl Drawn {
    fn add(&mut self, shown: &Shown, picture: &Picture) {
        self.drives += 1;
        for class in &shown.classes {
            count(&mut self.cells, *class, 1);
        }
        self.bars += picture.bars.len() as u64;
        self.ticks += picture.missing.len() as u64;
        self.delivered += shown.loss.delivered as u64;
        self.missing += shown.loss.missing as u64;
        self.wrong += shown.wrong.iter().sum::<usize>() as u64;
        self.twice += shown.placed.twice.len() as u64;
        self.late += shown.placed.late.len() as u64;
    }

    fn report(&self) {
        println!("coverage, equal to what the log says: {self:?}");
        assert_eq!(self.cells.len(), CELLS.len());
        assert!(self.ticks > 100 && self.wrong > 100);
    }
}

/// Draws a log, and compares the picture with what it says.
fn covered(bench: &mut Bench, csv: &[u8], logged: &[Logged], seen: &mut Drawn) {
    let columns = [20, 100, bench.rng.within(20, 200)][bench.rng.below(3)];
    let (title, stands) = TITLES[bench.rng.below(TITLES.len())];
    let mut options = Vec::new();
    option(&mut options, "title", title);
    option_but(&mut bench.rng, &mut options, "columns", columns, 100);
    let way = [Way::Named, Way::Redirected][bench.rng.below(2)];
    let ran = bench.run("coverage", &options, csv, way);
    let svg = String::from_utf8(ran.written).expect("a picture in UTF-8");
    assert!(svg.starts_with("<svg ") && svg.ends_with("</svg>\n"));
    assert!(svg.contains(&format!("\n<title>{stands}</title>\n")));
    assert!(svg.contains(&format!(">{stands}</text>\n")));
    let size = |name| attribute(&svg, name).parse().expect("a number");
    let size = (size("width"), size("height"));
    assert_eq!(
        attribute(&svg, "viewBox"),
        format!("0 0 {} {}", size.0, size.1)
    );
    let shown = Shown::of(logged);
    let picture = Picture::of(&svg);
    shown.check_cells(&picture, columns, size);
    shown.check_packets(&picture);
    let totals: Vec<_> = picture.totals.values().cloned().collect();
    assert_eq!(totals, shown.totals(), "{options:?}");
    assert_eq!(ran.said, shown.said(columns), "{options:?}");
    seen.add(&shown, &picture);
}

// The tests.

/// Whole drives, of all modes and streams.
#[test]
fn drives() {
    let mut bench = Bench::new("drives", 0x9B0A_0001);
    let mut sent = Sent::default();
    let mut travels = Travelled::default();
    let mut readings = Reading::default();
    let mut drawn = Drawn::default();
    for case in 0..300 {
        let line = TABLE[case % TABLE.len()];
        let sending = Sending::new(&mut bench.rng, line);
        let pdus = generated(&mut bench, &sending, &mut sent);
        let came = travelled(&mut bench, &pdus, &mut travels);
        let records = mixed(&mut bench.rng, came, &sending.end);
        let end = sending.end.other(&mut bench.rng);
        let csv = logged(&mut bench, &end, &records, &mut readings);
        covered(&mut bench, &csv, &heard(&end, &records), &mut drawn);
    }
    sent.report();
    travels.report();
    readings.report();
    drawn.report();
    println!(
        "runs: {:?}, what they read: {:?}, what they wrote: {:?}",
        bench.runs, bench.ways, bench.ontos
    );
}

/// Drives of another mode or stream than is asked for, after PDUs that are
/// refused for their length, of which the first few have a line each.
#[test]
fn other_drives() {
    let mut bench = Bench::new("other_drives", 0x9B0A_0007);
    let mut readings = Reading::default();
    let mut late = 0;
    let mut alone = 0;
    for case in 0..90 {
        let line = TABLE[case % TABLE.len()];
        let asked = TABLE[(case + 1 + case % 9) % TABLE.len()];
        let asked = End::new(&mut bench.rng, asked);
        let (pdus, _) = Sending::new(&mut bench.rng, line).pdus();
        let short = case % 9;
        let mut records = some_records(&mut bench.rng, short, PLACES - 1);
        late += usize::from(short >= REFUSED_LINES && !pdus.is_empty());
        records.extend(pdus);
        alone += usize::from(Tally::of(&heard(&asked, &records)).is_none_received());
        logged(&mut bench, &asked, &records, &mut readings);
    }
    println!("drives of another mode or stream: {readings:?}");
    println!("first after five refused PDUs: {late}, no PDU received: {alone}");
    assert!(readings.total.refused.keys().copied().eq([3, 6]));
    assert!(late > 20 && alone > 60);
}

/// A sending with one part made anew without a look at the others.
fn wrong_sending(rng: &mut Rng) -> Sending {
    let line = TABLE[rng.below(TABLE.len())];
    let mut sending = Sending::new(rng, line);
    sending.packets = vec![some_bytes(rng, 50), some_bytes(rng, 500)];
    let any = |rng: &mut Rng| [rng.below(4), rng.below(32), rng.below(256)][rng.below(3)] as u8;
    let s = &mut sending.settings;
    match rng.below(11) {
        0 => sending.end.line.mode = any(rng),
        1 => sending.end.line.stream = any(rng),
        2 => s.blend = any(rng),
        3 => s.gain = any(rng),
        4 => (s.common_delay, s.latency) = (any(rng), any(rng)),
        5 => (s.class_code, s.program) = (Some(any(rng)), Some(any(rng))),
        6 => {
            let (access, code) = (any(rng), any(rng));
            s.program_type = Some(ProgramType { access, code });
        }
        7 => {
            let marker = [1 << 21, u32::MAX, rng.bits() as u32][rng.below(3)];
            let services = any(rng);
            s.applied = Some(Applied { services, marker });
        }
        8 => sending.length = [95, 96, 20_480, 20_481, rng.below(65_536)][rng.below(5)],
        9 => {
            let psd = [1, 21, 22, 128, 129, 256, 300][rng.below(7)];
            sending.psd = some_bytes(rng, psd);
        }
        _ => {
            (sending.end.line, sending.length) = (TABLE[0], PLACES);
            let psd = rng.within(68, 82);
            sending.psd = some_bytes(rng, psd);
        }
    }
    sending
}

/// Sendings that are refused, or just not.
#[test]
fn refusals() {
    let mut bench = Bench::new("refusals", 0x9B0A_0002);
    let mut numbers = Counts::new();
    for _ in 0..500 {
        let sending = wrong_sending(&mut bench.rng);
        let (pdus, refusal) = sending.pdus();
        let options = sending.options(&mut bench);
        let ran = bench.run(
            "generate",
            &options,
            &to_records(&sending.packets),
            Way::Piped,
        );
        count(&mut numbers, refusal, 1);
        if refusal == 0 {
            assert!(ran.written == to_records(&pdus), "{options:?}");
            assert_eq!(ran.said, [sending.said(2, pdus.len())], "{options:?}");
            continue;
        }
        assert!(ran.written.is_empty(), "{options:?}");
        assert!(is_refusal(&ran.said[0], refusal), "{options:?}");
        assert_eq!(ran.said[1..], [stopped_early("generate")], "{options:?}");
    }
    println!("generate, by refusal: {numbers:?}");
    let seen: Vec<u32> = numbers.into_keys().collect();
    assert_eq!(seen, [0, 3, 5, 10, 14, 16, 17]);
}

/// How many parts of a file are whole in its first bytes, and whether these end
/// after one.
fn whole(parts: &[Vec<u8>], cut: usize) -> (usize, bool) {
    let (mut many, mut at) = (0, 0);
    for part in parts {
        if at + part.len() > cut {
            break;
        }
        many += 1;
        at += part.len();
    }
    (many, at == cut)
}

/// What a program says with its counts where a file ends inside something.
fn cut_lines(
    bench: &Bench,
    (name, way): (&str, Way),
    inside: Option<String>,
    counts: Vec<String>,
) -> Vec<String> {
    let Some(inside) = inside else {
        return counts;
    };
    let file = bench.place.join("input");
    let label = match way {
        Way::Named => file.to_str().expect("a name in UTF-8"),
        _ => "standard input",
    };
    let first = format!("barzhilup {name}: {label}: {inside}");
    [vec![first], counts, vec![stopped_early(name)]].concat()
}

/// Files that end anywhere: all that stands before the end is sent, comes
/// through and is logged, and what is missing is said.
#[test]
fn cut_files() {
    let mut bench = Bench::new("cut", 0x9B0A_0003);
    let mut ends = Counts::new();
    for case in 0..60 {
        let line = TABLE[case % TABLE.len()];
        let sending = Sending::new(&mut bench.rng, line);
        let (pdus, _) = sending.pdus();
        let end = sending.end.other(&mut bench.rng);
        let inside = [
            cut_sending(&mut bench, sending),
            cut_drive(&mut bench, &end, &pdus),
        ];
        for inside in inside {
            count(&mut ends, inside, 1);
        }
    }
    println!("cut files, by whether they end inside a record: {ends:?}");
    assert!(ends[&true] > 50);
}

/// Generates from a file of packets, or a dump, that is cut.
fn cut_sending(bench: &mut Bench, mut sending: Sending) -> bool {
    let adts = bench.rng.below(2) == 0;
    let parts = if adts {
        to_frames(&mut bench.rng, &sending.packets, Headers::Both)
    } else {
        each_record(&sending.packets)
    };
    let file = parts.concat();
    let cut = bench.rng.below(file.len() + 1);
    let (packets, is_end) = whole(&parts, cut);
    sending.packets.truncate(packets);
    let (pdus, _) = sending.pdus();
    let (way, said) = send(bench, &sending, (adts, &file[..cut]), &pdus);
    let begin = parts[..packets].concat().len();
    let inside = (!is_end).then(|| format!("at byte {begin}: ends inside packet {packets}"));
    let counts = vec![sending.said(packets, pdus.len())];
    assert_eq!(said, cut_lines(bench, ("generate", way), inside, counts));
    !is_end
}

/// Channel and log with a file of PDUs that is cut.
fn cut_drive(bench: &mut Bench, end: &End, pdus: &[Vec<u8>]) -> bool {
    let parts = each_record(pdus);
    let file = parts.concat();
    let cut = bench.rng.below(file.len() + 1);
    let (many, is_end) = whole(&parts, cut);
    let inside = (!is_end).then(|| format!("ends inside the record of PDU {many}"));
    let road = Road::new(&mut bench.rng);
    let way = bench.way();
    let (all, _) = over(bench, &road, pdus, way);
    let some = bench.run("channel", &road.options(), &file[..cut], way);
    assert!(some.written == to_records(&all[..many]), "{road:?}");
    let counts = vec![Damage::between(&pdus[..many], &all[..many], &road).said()];
    let wanted = cut_lines(bench, ("channel", way), inside.clone(), counts);
    assert_eq!(some.said, wanted, "{road:?}");
    let logged = heard(end, &pdus[..many]);
    let mut options = end.options(&mut bench.rng);
    option(&mut options, "format", "csv");
    let ran = bench.run("log", &options, &file[..cut], way);
    let csv = lines(&logged, true, is_end);
    check_lines(&text_lines(ran.written), &csv, &options);
    let counts = log_said(end, &logged);
    let wanted = cut_lines(bench, ("log", way), inside, counts);
    assert_eq!(ran.said, wanted, "{options:?}");
    !is_end
}

/// Roads with few bursts: none is longer than asked for, all lengths come, and
/// they come about as often as asked for.
#[test]
fn bursts() {
    let mut bench = Bench::new("bursts", 0x9B0A_0004);
    let pdus = some_records(&mut bench.rng, 20_000, 10);
    for (burst, loss) in [(1, 1), (2, 2), (4, 2), (8, 3), (64, 1)] {
        let mut runs: Counts<usize> = Counts::new();
        for seed in 1..=5 {
            let road = Road {
                seed,
                loss,
                burst,
                damage: 0,
                bytes: 4,
            };
            let (after, _) = over(&mut bench, &road, &pdus, Way::Named);
            for run in after.split(|pdu| !pdu.is_empty()) {
                count(&mut runs, run.len(), 1);
            }
        }
        runs.remove(&0);
        let begun: u64 = runs.values().sum();
        println!("bursts up to {burst}, {loss} in 1000: {begun} of these lengths: {runs:?}");
        // So many PDUs in 100,000 may begin one, those inside one not counted.
        let wanted = 100 * loss as u64;
        assert!(
            begun * 10 > wanted * 7 && begun * 10 < wanted * 12,
            "{begun}"
        );
        // Two may touch each other, once in a while.
        let too_long: u64 = runs.range(burst + 1..).map(|run| run.1).sum();
        assert!(too_long * 100 <= 2 * begun, "{too_long} of {begun}");
        assert!(burst > 8 || (1..=burst).all(|length| runs.contains_key(&length)));
    }
}

/// Each seed gives another file, and the same one each time.
#[test]
fn seeds() {
    let mut bench = Bench::new("seeds", 0x9B0A_0006);
    let file = to_records(&some_records(&mut bench.rng, 60, 100));
    let mut files = BTreeMap::new();
    for seed in (0..100).chain([1 << 16, 1 << 31, u32::MAX]) {
        let options = ["--seed".to_string(), seed.to_string()];
        let ran = bench.run("channel", &options, &file, Way::Named);
        let again = bench.run("channel", &options, &file, Way::Piped);
        assert!(ran.written == again.written, "{seed}");
        let other = files.insert(ran.written, seed);
        assert_eq!(other, None, "the same file for {seed}");
    }
    let ran = bench.run("channel", &[], &file, Way::Named);
    assert_eq!(files.get(&ran.written), Some(&1), "without a seed");
    println!("channel: {} seeds, each with another file", files.len());
}

/// The share of damaged headers, and of bytes in them, is the one asked for.
#[test]
fn damage() {
    let mut bench = Bench::new("damage", 0x9B0A_0005);
    let pdus = some_records(&mut bench.rng, 4_000, 120);
    for (damage, bytes) in [(100, 1), (500, 4), (900, 2), (1_000, 4), (1_000, 96)] {
        let road = Road {
            seed: 7,
            loss: 0,
            burst: 1,
            damage,
            bytes,
        };
        let (after, seen) = over(&mut bench, &road, &pdus, Way::Redirected);
        println!("headers damaged, {damage} in 1000 with up to {bytes} bytes: {seen:?}");
        let wanted = 4 * damage;
        assert!(seen.damaged * 10 >= wanted * 9 && seen.damaged * 10 <= wanted * 11);
        let doubled = seen.damaged * (bytes + 1);
        assert!(seen.altered * 20 >= doubled * 9 && seen.altered * 20 <= doubled * 11);
        let touched = |place: usize| (0..4_000).any(|pdu| pdus[pdu][place] != after[pdu][place]);
        assert!((0..PLACES).all(touched), "{road:?}");
    }
}
