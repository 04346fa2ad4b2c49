//! Random writing calls that are right in every part, which can be spoiled
//! before they are made.

use referee::header::{LONGEST, PLACES};
use referee::modes::{Line, CORE, TABLE};
use referee::rng::Rng;
use referee::settings::{Applied, ProgramType, Settings, FARTHEST_LENGTH};
use referee::writer::{Writer, LONGEST_PACKET, LONGEST_WITH_12_BITS};

/// A writing call.
#[derive(Clone, Debug)]
pub struct Call {
    pub writer: Writer,
    pub settings: Settings,
    pub psd: Vec<u8>,
    pub lengths: Vec<u16>,
    /// The packets' bytes, joined.
    pub bytes: Vec<u8>,
    /// R, the length of the PDU.
    pub length: usize,
}

/// What a call shall have; anything that is right where nothing is said. What
/// is said is taken as it is.
#[derive(Clone, Default)]
pub struct Wish {
    pub line: Option<Line>,
    /// What the register of the CRCs starts at; 0 where nothing is said.
    pub register: Option<u8>,
    pub length: Option<usize>,
    pub settings: Option<Settings>,
    /// How many bytes the PSD has.
    pub psd: Option<usize>,
    pub lengths: Option<Vec<u16>>,
    pub sent: Option<u16>,
}

impl Call {
    /// A random call that has what is wished for.
    pub fn new(rng: &mut Rng, wish: &Wish) -> Call {
        let line = wish.line.unwrap_or_else(|| TABLE[rng.below(TABLE.len())]);
        let length = wish.length.unwrap_or_else(|| some_length(rng, &line));
        let settings = wish
            .settings
            .unwrap_or_else(|| some_settings(rng, &line, length));
        let psd = wish
            .psd
            .unwrap_or_else(|| some_psd(rng, &line, &settings, length));
        let lengths = match &wish.lengths {
            Some(lengths) => lengths.clone(),
            None => some_lengths(rng, length),
        };
        let sent = wish.sent.unwrap_or_else(|| some_sent(rng, &lengths));
        let total = sum(&lengths);
        Call {
            writer: Writer {
                register: wish.register.unwrap_or(0),
                ..some_writer(rng, &line, sent)
            },
            settings,
            psd: some_bytes(rng, psd),
            lengths,
            bytes: some_bytes(rng, total),
            length,
        }
    }

    /// How many bytes PSD and expansion have together.
    pub fn psd_and_expansion(&self) -> usize {
        self.psd.len() + expansion_size(&self.settings)
    }

    /// Offers packets of other lengths.
    pub fn offer(&mut self, rng: &mut Rng, lengths: Vec<u16>) {
        self.bytes = some_bytes(rng, sum(&lengths));
        self.lengths = lengths;
    }
}

/// How many bytes packets of these lengths have.
pub fn sum(lengths: &[u16]) -> usize {
    lengths.iter().map(|&length| usize::from(length)).sum()
}

pub fn some_bytes(rng: &mut Rng, count: usize) -> Vec<u8> {
    let mut bytes = vec![0; count];
    rng.fill(&mut bytes);
    bytes
}

/// The longest PDU that the writer makes.
pub fn longest(line: &Line) -> usize {
    match line.locator_bits {
        12 => LONGEST_WITH_12_BITS,
        _ => LONGEST,
    }
}

/// The smallest and the largest lengths more often than others.
pub fn some_length(rng: &mut Rng, line: &Line) -> usize {
    let longest = longest(line);
    let most = match rng.below(64) {
        0..=9 => return PLACES,
        10..=19 => 100,
        20..=39 => 300,
        40..=55 => 1_500,
        56..=61 => 4_096,
        62 => longest,
        _ => return longest - rng.below(2),
    };
    rng.within(PLACES, most)
}

/// One of these values.
fn one_of(rng: &mut Rng, values: &[u8]) -> u8 {
    values[rng.below(values.len())]
}

/// Settings that are right for this line and length.
pub fn some_settings(rng: &mut Rng, line: &Line, length: usize) -> Settings {
    let classed = rng.below(4) == 0;
    let asked = rng.below(3) > 0;
    let program = if classed {
        Some(rng.within(1, 7) as u8)
    } else if asked && rng.below(2) == 0 {
        Some(rng.below(8) as u8)
    } else {
        None
    };
    let blend = match program {
        None | Some(0) => rng.below(3) as u8,
        Some(_) => 0,
    };
    let gain = match (line.stream, rng.below(4)) {
        (CORE, 0) => one_of(rng, &[0, 6, 24, 31]),
        (CORE, 1) => rng.within(24, 31) as u8,
        (CORE, _) => rng.below(7) as u8,
        _ => rng.below(32) as u8,
    };
    let typed = classed || (asked && rng.below(2) == 0);
    let serviced = asked && rng.below(2) == 0;
    let displaced = asked && rng.below(2) == 0;
    Settings {
        blend,
        gain,
        common_delay: rng.below(64) as u8,
        latency: rng.below(8) as u8,
        class_code: classed.then_some(1),
        program,
        displaced: displaced && length <= FARTHEST_LENGTH,
        program_type: typed.then(|| ProgramType {
            access: u8::from(classed),
            code: rng.byte(),
        }),
        applied: serviced.then(|| Applied {
            services: if classed { rng.below(2) as u8 } else { 0 },
            marker: rng.below(1 << 21) as u32,
        }),
    }
}

/// Settings of which most say a class, and most of these applied services 1
/// (document 02, Ask 10): those have programs 1 to 7.
#[allow(dead_code)]
pub fn paid_settings(rng: &mut Rng, line: &Line, length: usize) -> Settings {
    let settings = some_settings(rng, line, length);
    if rng.below(4) == 0 {
        return settings;
    }
    Settings {
        blend: 0,
        class_code: Some(1),
        program: Some(rng.within(1, 7) as u8),
        program_type: Some(ProgramType {
            access: 1,
            code: rng.byte(),
        }),
        applied: Some(Applied {
            services: u8::from(rng.below(3) > 0),
            marker: rng.below(1 << 21) as u32,
        }),
        ..settings
    }
}

/// How many expansion bytes these settings ask for.
pub fn expansion_size(settings: &Settings) -> usize {
    let class = usize::from(settings.class_code.is_some());
    let type_code = 2 * usize::from(settings.program_type.is_some());
    let services = 4 * usize::from(settings.applied.is_some());
    let others = class + type_code + services;
    let program = match (settings.displaced, settings.program) {
        (true, _) => 3,
        (false, None) if others == 0 => 0,
        _ => 1,
    };
    others + program
}

/// How many bytes so many locators take.
pub fn locator_bytes(line: &Line, pieces: usize) -> usize {
    match line.locator_bits {
        16 => 2 * pieces,
        _ => 3 * (pieces / 2) + 2 * (pieces % 2),
    }
}

/// The most pieces that a writer places with so many bytes of PSD and expansion:
/// the largest k up to 63 for which La is at most 255 (document 02, Ask 9). Of
/// the 242 bytes that La can tell from byte 14 on, locators of 16 bits take two
/// each, those of 12 bits three a pair and two if one is left.
pub fn count_limit(line: &Line, both: usize) -> usize {
    let left = 242 - both;
    let fit = match line.locator_bits {
        16 => left / 2,
        _ => left / 3 * 2 + usize::from(left % 3 == 2),
    };
    fit.min(63)
}

/// How many bytes of PSD are right with these settings, also if packets are
/// offered.
pub fn most_psd(line: &Line, settings: &Settings, length: usize) -> usize {
    if !line.psd {
        return 0;
    }
    let column = line.psd_and_expansion;
    column.min(length - 18) - expansion_size(settings)
}

fn some_psd(rng: &mut Rng, line: &Line, settings: &Settings, length: usize) -> usize {
    let most = most_psd(line, settings, length);
    match rng.below(8) {
        0..=2 => 0,
        3 => most,
        4 => 1.min(most),
        _ => rng.within(0, most),
    }
}

/// Lengths of packets of about one size, which can be a little or far too many
/// for the PDU.
fn some_lengths(rng: &mut Rng, length: usize) -> Vec<u16> {
    let longest = [1, 3, 20, 100, 600, LONGEST_PACKET][rng.below(6)];
    let count = match rng.below(8) {
        0 => 0,
        1 => 1,
        2 => 2,
        3 | 4 => rng.within(1, 8),
        _ => rng.within(1, 80),
    };
    let mut lengths = Vec::new();
    while lengths.len() < count && sum(&lengths) < length + 2_000 {
        lengths.push(some_packet(rng, longest));
    }
    lengths
}

/// The length of a packet.
pub fn some_packet(rng: &mut Rng, longest: usize) -> u16 {
    match rng.below(8) {
        0 => longest as u16,
        1 => 1,
        _ => rng.within(1, longest) as u16,
    }
}

/// How many bytes of the first packet are sent, fewer than it has.
pub fn some_sent(rng: &mut Rng, lengths: &[u16]) -> u16 {
    match (lengths.first(), rng.below(8)) {
        (None, _) | (_, 0..=3) => 0,
        (Some(&first), 4) => first - 1,
        (Some(&first), 5) => 1.min(first - 1),
        (Some(&first), _) => rng.below(usize::from(first)) as u16,
    }
}

fn some_writer(rng: &mut Rng, line: &Line, sent: u16) -> Writer {
    let number = match rng.below(8) {
        0 => 0,
        1 => 63,
        2 => 62,
        _ => rng.below(64) as u8,
    };
    Writer {
        mode: line.mode,
        stream: line.stream,
        register: 0,
        sequence: rng.below(usize::from(line.sequences)) as u8,
        number,
        sent,
    }
}
