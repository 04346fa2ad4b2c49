//! The structs and numbers here beside those of `include/barzhilup.h`, as the C
//! compiler sees them: each is written down as a static assertion, and the
//! compiler is asked whether all hold.

use super::*;
use crate::Refusal;
use std::io::Write;
use std::mem::offset_of;
use std::process::{Command, Stdio};

/// Assertions on a struct's size and alignment and on each field's place and
/// size.
macro_rules! layout {
    ($c:literal, $rust:ty, $($field:ident),+) => {{
        let mut lines = vec![
            holds(&format!("sizeof({})", $c), size_of::<$rust>()),
            holds(&format!("_Alignof({})", $c), align_of::<$rust>()),
        ];
        $(
            let field = stringify!($field);
            lines.push(holds(&format!("offsetof({}, {field})", $c), offset_of!($rust, $field)));
            lines.push(holds(
                &format!("sizeof((({} *)0)->{field})", $c),
                size_of_field(|whole: &$rust| &whole.$field),
            ));
        )+
        lines
    }};
}

/// The size of what a field's getter gives.
fn size_of_field<T, F>(_: impl Fn(&T) -> &F) -> usize {
    size_of::<F>()
}

/// A static assertion that a C expression has this value.
fn holds(expression: &str, value: usize) -> String {
    format!("_Static_assert({expression} == {value}, \"{expression}\");")
}

/// What the C compiler says to a file with these lines after the header: whether
/// all hold, and its messages.
fn compile(lines: &[String]) -> (bool, String) {
    let include = concat!(env!("CARGO_MANIFEST_DIR"), "/../../include");
    let mut compiler = Command::new("gcc")
        .args(["-std=c11", "-fsyntax-only", "-I", include, "-x", "c", "-"])
        .stdin(Stdio::piped())
        .stderr(Stdio::piped())
        .spawn()
        .expect("gcc runs");
    let source = format!("#include \"barzhilup.h\"\n{}\n", lines.join("\n"));
    let mut input = compiler.stdin.take().expect("gcc's input");
    input.write_all(source.as_bytes()).expect("gcc reads");
    drop(input);
    let output = compiler.wait_with_output().expect("gcc ends");
    let messages = String::from_utf8_lossy(&output.stderr).into_owned();
    (output.status.success(), messages)
}

/// The writer and its answers.
fn writers() -> Vec<String> {
    [
        layout!(
            "barzhilup_writer",
            Writer,
            mode,
            stream,
            crc_start,
            sequence,
            number,
            sent
        ),
        layout!("barzhilup_writer_opened", WriterOpened, refusal, writer),
        layout!("barzhilup_written", Written, refusal, ended, writer),
    ]
    .concat()
}

/// The receiver and its answers.
fn receivers() -> Vec<String> {
    [
        layout!(
            "barzhilup_receiver",
            Receiver,
            mode,
            stream,
            crc_start,
            entitled,
            known,
            sequence,
            held,
            number,
            serviced,
            services,
            delivered,
            missing,
            last
        ),
        layout!(
            "barzhilup_receiver_opened",
            ReceiverOpened,
            refusal,
            receiver
        ),
        layout!(
            "barzhilup_received",
            Received,
            refusal,
            wrong_locator,
            words,
            receiver
        ),
        layout!("barzhilup_saved", snapshots::Saved, refusal, words),
        layout!(
            "barzhilup_batch",
            batches::Batch,
            refusal,
            wrong_locator,
            taken,
            words,
            receiver
        ),
    ]
    .concat()
}

/// The settings, and the small answers.
fn settings() -> Vec<String> {
    [
        layout!(
            "barzhilup_settings",
            Settings,
            blend,
            gain,
            common_delay,
            latency,
            classed,
            class_code,
            programmed,
            program,
            displaced,
            typed,
            access,
            type_code,
            serviced,
            services,
            marker
        ),
        layout!("barzhilup_syndromes_answer", Values, values),
        layout!("barzhilup_parity_answer", Values, values),
        layout!("barzhilup_share_answer", shares::Added, refusal, parity),
        layout!(
            "barzhilup_correction_answer",
            Correction,
            refusal,
            corrected
        ),
        layout!("barzhilup_piece", Piece, start, length, right),
    ]
    .concat()
}

/// The control word.
fn control_words() -> Vec<String> {
    layout!(
        "barzhilup_control_word",
        ControlWord,
        mode,
        stream,
        sequence,
        blend,
        gain,
        common_delay,
        latency,
        pfirst,
        plast,
        start,
        nop,
        expansion,
        la
    )
}

/// What reading answers.
fn readings() -> Vec<String> {
    [
        layout!(
            "barzhilup_expansion",
            Expansion,
            class_code,
            program,
            displacement,
            access,
            type_code,
            services,
            marker
        ),
        layout!(
            "barzhilup_reading",
            Reading,
            refusal,
            wrong_locator,
            control,
            expansion,
            psd_start,
            psd_length,
            starts,
            lengths
        ),
    ]
    .concat()
}

/// What the bench for latency settings answers.
fn latencies() -> Vec<String> {
    [
        layout!(
            "barzhilup_latency_answer",
            latency::Answer,
            refusal,
            latency,
            found
        ),
        layout!(
            "barzhilup_latency_trial",
            latency::Trial,
            refusal,
            ticks,
            dry,
            first_dry,
            most_waiting
        ),
        layout!("barzhilup_waiting_answer", latency::Waiting, refusal, count),
    ]
    .concat()
}

/// The answer to joining two logs, and the bit of an enhanced packet.
fn joinings() -> Vec<String> {
    let mut lines = layout!("barzhilup_joined", joining::Joined, refusal, words);
    lines.push(holds(
        "BARZHILUP_JOINED_ENHANCED",
        crate::JOINED_ENHANCED as usize,
    ));
    lines
}

#[test]
fn structs_lie_as_in_c() {
    let parts = [
        writers(),
        receivers(),
        settings(),
        control_words(),
        readings(),
        latencies(),
        joinings(),
    ];
    let (right, messages) = compile(&parts.concat());
    assert!(right, "{messages}");
}

#[test]
fn a_wrong_place_shows() {
    let (right, messages) = compile(&[holds("offsetof(barzhilup_writer, sent)", 5)]);
    assert!(!right && messages.contains("offsetof(barzhilup_writer, sent)"));
}

#[test]
fn sizes_are_as_in_c() {
    let sizes = [
        ("HEADER_BYTES", HEADER_BYTES),
        ("PARITY_BYTES", PARITY_BYTES),
        ("CORRECTED_MAX", crate::CORRECTED_MAX),
        ("MARKS_MAX", crate::MARKS_MAX),
        ("PDU_MIN", crate::PDU_MIN),
        ("PDU_MAX", crate::PDU_MAX),
        ("PDU_MAX_12_BITS", crate::PDU_MAX_12_BITS),
        ("PACKET_MAX", crate::PACKET_MAX),
        ("PIECES_MAX", crate::PIECES_MAX),
        ("CARRY_BYTES", crate::CARRY_BYTES),
        ("LOG_WORDS", crate::LOG_WORDS),
        ("SNAPSHOT_WORDS", crate::SNAPSHOT_WORDS),
        ("CRC_START", crate::CRC_START.into()),
        ("CRC_START_OFF_AIR", crate::CRC_START_OFF_AIR.into()),
        ("COUNTS_MAX", crate::COUNTS_MAX),
        ("COUNT_MAX", crate::COUNT_MAX as usize),
        ("LATENCY_MAX", usize::from(crate::LATENCY_MAX)),
    ];
    let lines = sizes.map(|(name, value)| holds(&format!("BARZHILUP_{name}"), value));
    let (right, messages) = compile(&lines);
    assert!(right, "{messages}");
}

/// C's name of a refusal, from ours: `CarryLength { .. }` is `CARRY_LENGTH`.
fn c_name(refusal: Refusal) -> String {
    let mut name = String::new();
    for letter in format!("{refusal:?}").chars() {
        if !letter.is_alphanumeric() {
            break;
        }
        if letter.is_uppercase() && !name.is_empty() {
            name.push('_');
        }
        name.push(letter.to_ascii_uppercase());
    }
    name
}

#[test]
fn refusals_are_numbered_as_in_c() {
    let mut lines = Vec::new();
    for number in 1..=27 {
        let refusal = Refusal::check(number, 3).expect_err("a refusal");
        assert_eq!(refusal.number(), number);
        let name = c_name(refusal);
        lines.push(holds(&format!("BARZHILUP_REFUSED_{name}"), number as usize));
    }
    lines.push(holds("BARZHILUP_ACCEPTED", 0));
    assert_eq!(Refusal::check(0, 0), Ok(()));
    let (right, messages) = compile(&lines);
    assert!(right, "{messages}");
}

#[test]
fn the_number_k_comes_with_11() {
    assert_eq!(Refusal::check(11, 40), Err(Refusal::Locator { k: 40 }));
}

#[test]
fn causes_are_numbered_as_in_c() {
    use crate::Cause::*;
    let causes = [
        ("NOTE_SEQUENCE", Sequence),
        ("NOTE_CRC", Crc),
        ("NOTE_NOTHING_HELD", NothingHeld),
        ("NOTE_NOT_CONTINUED", NotContinued),
        ("NOTE_TOO_LONG", TooLong),
        ("NOTE_LOST", Lost),
        ("NOTE_COPIES_DIFFER", CopiesDiffer),
        ("NOTE_WITHHELD", Withheld),
    ];
    let lines =
        causes.map(|(name, cause)| holds(&format!("BARZHILUP_{name}"), cause.number() as usize));
    let (right, messages) = compile(&lines);
    assert!(right, "{messages}");
}
