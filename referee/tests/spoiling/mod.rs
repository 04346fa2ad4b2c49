//! Makes right writing calls wrong.

use crate::calls::{self, some_bytes, Call};
use referee::header::LONGEST;
use referee::refusal;
use referee::rng::Rng;
use referee::settings::{Applied, ProgramType};

/// The numbers that writing can answer.
pub const NUMBERS: [u32; 7] = [1, 3, 10, 14, 15, 16, 17];

/// Makes this refusal apply, and no lower one. Refusal 17 needs a mode whose
/// column has 128.
pub fn spoil(rng: &mut Rng, call: &mut Call, number: u32) {
    let settings = &mut call.settings;
    match number {
        refusal::STATE => match rng.below(3) {
            0 => call.writer.mode = rng.within(4, 9) as u8,
            1 => call.writer.sequence = rng.within(8, 255) as u8,
            _ => call.writer.number = rng.within(64, 255) as u8,
        },
        refusal::LENGTH => {
            call.length = match rng.below(2) {
                0 => rng.below(96),
                _ => rng.within(LONGEST + 1, LONGEST + 40),
            }
        }
        refusal::EXPANSION => match rng.below(3) {
            0 => settings.class_code = Some([0, 2, 15, 16][rng.below(4)]),
            1 => {
                settings.applied = Some(Applied {
                    services: rng.within(2, 8) as u8,
                    marker: 0,
                });
            }
            _ => {
                settings.class_code = Some(1);
                settings.program_type = None;
            }
        },
        refusal::VALUE => match rng.below(3) {
            0 => settings.common_delay = rng.within(64, 255) as u8,
            1 => settings.latency = rng.within(8, 255) as u8,
            _ => settings.blend = rng.within(3, 255) as u8,
        },
        refusal::PACKETS => {
            let mut lengths = call.lengths.clone();
            match rng.below(3) {
                0 => lengths.push(0),
                1 => lengths.insert(0, 4_097),
                _ => call.writer.sent = lengths.first().copied().unwrap_or(1).min(4_095),
            }
            if lengths == call.lengths && lengths.first() == Some(&4_096) {
                lengths.push(0);
            }
            call.offer(rng, lengths);
        }
        refusal::PSD => call.psd = some_bytes(rng, 129),
        _ => {
            call.length = rng.within(96, 140);
            call.psd = some_bytes(rng, 128 - calls::expansion_size(settings));
        }
    }
}

/// Changes something in the call.
pub fn disturb(rng: &mut Rng, call: &mut Call) {
    let settings = &mut call.settings;
    let small = rng.below(34) as u8;
    match rng.below(18) {
        0 => call.writer.mode = rng.below(16) as u8,
        1 => call.writer.stream = rng.below(3) as u8,
        2 => call.writer.sequence = rng.below(9) as u8,
        3 => call.writer.number = rng.below(66) as u8,
        4 => call.writer.sent = rng.below(4_100) as u16,
        5 => call.length = rng.within(90, 220),
        6 => call.length = [4_097, 16_385, 20_481][rng.below(3)] - rng.below(2),
        7 => settings.blend = rng.below(5) as u8,
        8 => settings.gain = small,
        9 => settings.class_code = [None, Some(1), Some(small % 3)][rng.below(3)],
        10 => settings.program = [None, Some(small % 9)][rng.below(2)],
        11 => settings.displaced = !settings.displaced,
        12 => {
            settings.program_type = [
                None,
                Some(ProgramType {
                    access: small % 3,
                    code: rng.byte(),
                }),
            ][rng.below(2)];
        }
        13 => {
            settings.applied = [
                None,
                Some(Applied {
                    services: small % 3,
                    marker: rng.below(1 << 22) as u32,
                }),
            ][rng.below(2)];
        }
        14 => {
            let count = [rng.below(30), rng.within(70, 132)][rng.below(2)];
            call.psd = some_bytes(rng, count);
        }
        15 if !call.lengths.is_empty() => {
            let place = rng.below(call.lengths.len());
            let mut lengths = call.lengths.clone();
            lengths[place] = [0, 1, 4_096, 4_097, rng.below(5_000)][rng.below(5)] as u16;
            call.offer(rng, lengths);
        }
        16 if !call.lengths.is_empty() => {
            let left = rng.below(call.lengths.len());
            let lengths = call.lengths[..left].to_vec();
            call.offer(rng, lengths);
        }
        _ => call.bytes.extend(vec![0; rng.below(2)]),
    }
}
