//! Random PDUs that are right in every part, as parts that can be spoiled
//! before they are put together, with what reading them has to answer.

use referee::control::{ControlWord, MOST_PIECES};
use referee::encode::{self, Field, Parts, Piece};
use referee::expansion::{Fields, MOST};
use referee::header::{LONGEST, PLACES};
use referee::locators;
use referee::modes::{Line, TABLE};
use referee::reading::{self, Reading};
use referee::rng::Rng;

/// The largest displacement that fourteen bits can say.
pub const FARTHEST: usize = 16_383;

/// What a sample shall have; anything where nothing is said.
#[derive(Clone, Default)]
pub struct Wish {
    pub line: Option<Line>,
    pub nop: Option<usize>,
    /// The expansion fields; an empty list leaves out the expansion.
    pub fields: Option<Vec<Field>>,
    pub psd: Option<usize>,
    /// The PDU's length, if the parts fit into it.
    pub length: Option<usize>,
    /// How many bytes lie between the last CRC and the PDU's end, if the
    /// locators can say so.
    pub unused: Option<usize>,
}

/// A PDU in its parts.
#[derive(Clone)]
pub struct Sample {
    pub line: Line,
    pub length: usize,
    pub fields: Vec<Field>,
    pub parts: Parts,
}

impl Sample {
    /// A random one that has what is wished for and is right, except that any
    /// fields can be wished for.
    pub fn new(rng: &mut Rng, wish: &Wish) -> Sample {
        let line = wish.line.unwrap_or_else(|| TABLE[rng.below(TABLE.len())]);
        let bits = line.locator_bits;
        let nop = wish.nop.unwrap_or_else(|| some_nop(rng));
        let fields = wish.fields.clone().unwrap_or_else(|| some_fields(rng));
        let expansion = encode::expansion(&fields);
        let before_psd = locators::last_byte(bits, nop) + expansion.len();
        let least = PLACES.max(before_psd + 1 + 2 * nop);
        let length = match wish.length {
            Some(length) => length.max(least),
            None => some_length(rng, least),
        };
        // No locator can say more than its bits hold.
        let reach = (length - 1).min((1 << bits) - 1);
        let most = (reach - before_psd - 2 * nop).min(255 - before_psd);
        let psd = match wish.psd {
            Some(psd) => psd.min(most),
            None => some_psd(rng, most),
        };
        let la = before_psd + psd;
        let locators = some_locators(rng, la, nop, reach, wish.unused);
        let mut sample = Sample {
            line,
            length,
            parts: Parts {
                control: some_control(rng, line, nop, la, !fields.is_empty()),
                locator_bits: bits,
                pieces: some_pieces(rng, la, &locators),
                locators,
                unused_bits: rng.below(16) as u8,
                expansion,
                psd: some_bytes(rng, psd),
                register: 0,
            },
            fields,
        };
        sample.aim(rng);
        sample
    }

    /// Gives every displacement a right value, from the last piece's end to
    /// the PDU's last byte. Where fourteen bits can't say one, the fields
    /// make room for PSD.
    fn aim(&mut self, rng: &mut Rng) {
        let first = self.end();
        let last = (self.length - 1).min(FARTHEST);
        if first > last && self.has_displacement() {
            self.fields.clear();
            self.parts.psd.splice(0..0, self.parts.expansion.drain(..));
            self.parts.control.expansion = false;
        }
        for field in &mut self.fields {
            if let Field::ProgramAndDisplacement(_, place) = field {
                *place = match rng.below(4) {
                    0 => first,
                    1 => last,
                    _ => rng.within(first, last),
                };
            }
        }
        self.write_fields();
    }

    /// Puts other fields of the same size in, or the same with other values.
    pub fn write_fields(&mut self) {
        self.parts.expansion = encode::expansion(&self.fields);
    }

    /// Whether a displacement is among the fields.
    pub fn has_displacement(&self) -> bool {
        let displaced = |field: &Field| matches!(field, Field::ProgramAndDisplacement(..));
        self.fields.iter().any(displaced)
    }

    /// Changes the displacements.
    pub fn set_displacement(&mut self, to: usize) {
        for field in &mut self.fields {
            if let Field::ProgramAndDisplacement(_, place) = field {
                *place = to;
            }
        }
        self.write_fields();
    }

    /// The last piece's end, La if there is no piece.
    pub fn end(&self) -> usize {
        let la = usize::from(self.parts.control.la);
        self.parts.locators.last().copied().unwrap_or(la)
    }

    /// The place of the last locator byte.
    pub fn last_locator_byte(&self) -> usize {
        locators::last_byte(self.line.locator_bits, self.parts.locators.len())
    }

    /// What reading answers, if the sample is right.
    pub fn reading(&self) -> Reading {
        Reading {
            control: self.parts.control,
            expansion: said(&self.fields),
            psd_start: self.last_locator_byte() + 1 + self.parts.expansion.len(),
            psd_length: self.parts.psd.len(),
            pieces: self.parts.pieces.iter().map(place).collect(),
        }
    }

    /// The PDU with other bytes than the parts' taken from the given ones.
    pub fn encode(&self, background: &[u8]) -> Vec<u8> {
        let mut pdu = background.to_vec();
        self.parts.encode(&mut pdu);
        pdu
    }
}

/// A piece's place and length.
fn place(piece: &Piece) -> reading::Piece {
    reading::Piece {
        start: piece.start,
        length: piece.bytes.len(),
    }
}

/// What the fields say, up to where interpretation stops.
fn said(fields: &[Field]) -> Fields {
    let mut said = Fields::default();
    for field in fields {
        match *field {
            Field::Class(class) => said.class_code = class,
            Field::Program(program) => said.program = program,
            Field::ProgramAndDisplacement(program, place) => {
                said.program = program;
                said.displacement = Some(place as u16);
            }
            Field::Type { access, code, .. } => {
                said.access = access;
                said.type_code = code;
            }
            Field::Marker { services, marker } => {
                said.services = services;
                said.marker = marker;
            }
            Field::Other(_) => break,
        }
    }
    said
}

/// Often none, one, or the most; and those at which the locators end inside the
/// header, and one more.
fn some_nop(rng: &mut Rng) -> usize {
    match rng.below(16) {
        0 | 1 => 0,
        2 | 3 => 1,
        4 | 5 => MOST_PIECES - rng.below(2),
        6 => [41, 42, 54, 55][rng.below(4)],
        7..=10 => rng.within(0, 6),
        _ => rng.within(0, MOST_PIECES),
    }
}

fn some_length(rng: &mut Rng, least: usize) -> usize {
    let most = match rng.below(64) {
        0..=11 => least,
        12..=39 => 300,
        40..=55 => 1_500,
        56..=61 => 4_200,
        62 => LONGEST,
        _ => return LONGEST - rng.below(2),
    };
    rng.within(least, most.max(least))
}

fn some_psd(rng: &mut Rng, most: usize) -> usize {
    match rng.below(8) {
        0..=2 => 0,
        3 => most,
        4 => 1.min(most),
        _ => rng.within(0, most),
    }
}

fn some_bytes(rng: &mut Rng, count: usize) -> Vec<u8> {
    let mut bytes = vec![0; count];
    rng.fill(&mut bytes);
    bytes
}

/// Locators from La plus 2 on that leave each piece at least a byte.
fn some_locators(
    rng: &mut Rng,
    la: usize,
    nop: usize,
    reach: usize,
    unused: Option<usize>,
) -> Vec<usize> {
    let spare = reach - la - 2 * nop;
    let mut extra: Vec<usize> = match rng.below(8) {
        0 => vec![0; nop],
        1 => (0..nop).map(|_| spare).collect(),
        _ => (0..nop).map(|_| rng.within(0, spare)).collect(),
    };
    extra.sort_unstable();
    if let (Some(unused), Some(last)) = (unused, extra.last_mut()) {
        *last = (*last).max(spare.saturating_sub(unused));
    } else if rng.below(3) == 0 {
        // The last CRC at the PDU's end, if the locators reach so far.
        if let Some(last) = extra.last_mut() {
            *last = spare;
        }
    }
    (0..nop).map(|k| la + 2 * (k + 1) + extra[k]).collect()
}

/// Pieces between the locators, one of eight with a wrong CRC.
fn some_pieces(rng: &mut Rng, la: usize, locators: &[usize]) -> Vec<Piece> {
    locators::starts(la, locators)
        .into_iter()
        .zip(locators)
        .map(|(start, locator)| Piece {
            start,
            bytes: some_bytes(rng, locator - start),
            crc_error: if rng.below(8) == 0 {
                rng.nonzero_byte()
            } else {
                0
            },
        })
        .collect()
}

fn some_control(rng: &mut Rng, line: Line, nop: usize, la: usize, expansion: bool) -> ControlWord {
    ControlWord {
        mode: line.mode,
        stream: line.stream,
        sequence: rng.below(usize::from(line.sequences)) as u8,
        blend: rng.below(4) as u8,
        gain: rng.below(32) as u8,
        common_delay: rng.below(64) as u8,
        latency: rng.below(8) as u8,
        pfirst: nop > 0 && rng.below(2) == 0,
        plast: nop > 0 && rng.below(2) == 0,
        start: rng.below(64) as u8,
        nop: nop as u8,
        expansion,
        la: la as u8,
    }
}

/// A field with this ID that is interpreted, its displacement still 0. There
/// are none for IDs 3, 5, 6 and 7.
pub fn field(rng: &mut Rng, id: u8, displaced: bool) -> Field {
    match id {
        0 => Field::Class(rng.within(1, 15) as u8),
        1 if displaced => Field::ProgramAndDisplacement(rng.below(8) as u8, 0),
        1 => Field::Program(rng.below(8) as u8),
        2 => Field::Type {
            access: rng.below(2) as u8,
            unused: rng.below(4) as u8,
            code: rng.byte(),
        },
        4 => Field::Marker {
            services: rng.below(8) as u8,
            marker: rng.below(1 << 21) as u32,
        },
        _ => panic!("ID {id} isn't interpreted"),
    }
}

/// So many bytes, the first with an ID at which interpretation stops.
pub fn stop(rng: &mut Rng, id: u8, count: usize) -> Field {
    let mut bytes = some_bytes(rng, count);
    let low = match id {
        3 | 5 | 6 | 7 => bytes[0] & 15,
        4 => bytes[0] & 7,
        _ => panic!("ID {id} is interpreted"),
    };
    bytes[0] = id << 4 | low;
    // What follows looks like fields at times.
    for byte in &mut bytes[1..] {
        if rng.below(2) == 0 {
            *byte = [0x00, 0x01, 0x10, 0x11, 0x20, 0x30, 0x40, 0x48][rng.below(8)];
        }
    }
    Field::Other(bytes)
}

/// Any right list of fields: some of those that are interpreted, and then
/// perhaps one at which interpretation stops. A third of them are empty.
pub fn some_fields(rng: &mut Rng) -> Vec<Field> {
    if rng.below(3) == 0 {
        return Vec::new();
    }
    let chosen = rng.below(16);
    let displaced = rng.below(2) == 0;
    let mut fields = Vec::new();
    for (index, id) in [0, 1, 2, 4].into_iter().enumerate() {
        if (chosen >> index) & 1 != 0 {
            fields.push(field(rng, id, displaced));
        }
    }
    if chosen == 0 || rng.below(3) == 0 {
        let room = MOST - encode::expansion(&fields).len();
        let count = match rng.below(4) {
            0 => 1,
            1 => room,
            _ => rng.within(1, room),
        };
        let ids: &[u8] = if chosen >= 8 {
            &[5, 6, 7]
        } else {
            &[3, 4, 5, 6, 7]
        };
        let id = ids[rng.below(ids.len())];
        fields.push(stop(rng, id, count));
    }
    fields
}
