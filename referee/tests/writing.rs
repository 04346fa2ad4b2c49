//! Compares the product's writer with the reference, on writing calls of all
//! modes and streams: right ones, whole chains of calls that send one list of
//! packets, and ones made for each cause of the refusals 1, 3, 10 and 14 to
//! 17. Each PDU that is written is read back by the reference.

mod calls;
mod chains;
mod lent;
mod product;
mod readback;
mod spoiling;
mod trial;

use calls::{some_bytes, some_packet, some_settings, sum, Call, Wish};
use chains::{Chain, STYLES};
use referee::header::{LONGEST, PLACES};
use referee::modes::{self, Line, CORE, TABLE};
use referee::refusal::{self, Value, WriterCause};
use referee::rng::Rng;
use referee::settings::{Applied, ProgramType, Settings};
use referee::writer::{self, Writer, LONGEST_PACKET};
use spoiling::{disturb, spoil, NUMBERS};
use trial::{Class, Known, Outcomes, Tried};

/// Right calls of all modes and streams.
fn right(total: &mut Outcomes) {
    let mut class = Class::new("right", 0x3217_0001);
    for case in 0..40_000 {
        let wish = Wish {
            line: Some(TABLE[case % TABLE.len()]),
            ..Wish::default()
        };
        let call = class.call(&wish);
        class.check(&call, Known::Taken);
    }
    class.report(total);
}

/// Chains of calls, each sending one list of packets.
fn chains(total: &mut Outcomes) {
    let mut class = Class::new("chains", 0x3217_0002);
    for line in TABLE {
        for style in STYLES {
            for _ in 0..20 {
                Chain::new(&mut class.rng, line, style, 0).run(&mut class);
            }
        }
    }
    class.report(total);
    assert!(class.outcomes.calls >= 100_000);
}

/// Refusal 1: every mode with every stream around the table's, and others.
fn modes_and_streams(total: &mut Outcomes) {
    let mut class = Class::new("modes and streams", 0x3217_0003);
    let others = [32, 64, 128, 224, 255];
    for mode in (0..=17).chain(others) {
        for stream in (0..=4).chain(others) {
            for _ in 0..12 {
                let line = modes::line_for(mode, stream);
                let mut call = class.call(&Wish {
                    line,
                    ..Wish::default()
                });
                call.writer.mode = mode;
                call.writer.stream = stream;
                if line.is_some() {
                    class.check(&call, Known::Taken);
                } else {
                    call.settings.gain = 0;
                    class.check(&call, Known::Only(WriterCause::ModeAndStream));
                }
            }
        }
    }
    class.report(total);
}

/// Refusal 1: the state's other fields around their ranges.
fn states(total: &mut Outcomes) {
    let mut class = Class::new("states", 0x3217_0004);
    for line in TABLE {
        let wish = Wish {
            line: Some(line),
            ..Wish::default()
        };
        for _ in 0..12 {
            for sequence in (0..=9).chain([16, 64, 128, 254, 255]) {
                let mut call = class.call(&wish);
                call.writer.sequence = sequence;
                if sequence < line.sequences {
                    class.check(&call, Known::Taken);
                } else {
                    class.check(&call, Known::Only(WriterCause::Sequence));
                }
            }
            for number in [0, 62, 63, 64, 65, 127, 128, 191, 192, 255] {
                let mut call = class.call(&wish);
                call.writer.number = number;
                if number < 64 {
                    class.check(&call, Known::Taken);
                } else {
                    class.check(&call, Known::Only(WriterCause::Number));
                }
            }
            for sent in [4_094, 4_095, 4_096, 4_097, 8_192, 65_535] {
                let mut lengths = vec![4_096, 1];
                lengths.truncate(class.rng.below(3));
                let mut call = class.call(&wish);
                call.offer(&mut class.rng, lengths);
                call.writer.sent = sent;
                match (sent < 4_096, call.lengths.is_empty()) {
                    (true, false) => class.check(&call, Known::Taken),
                    (true, true) => class.check(&call, Known::Only(WriterCause::UnfinishedAbsent)),
                    (false, _) => class.check(&call, Known::Number(refusal::STATE)),
                };
            }
        }
    }
    class.report(total);
}

/// Refusal 3: lengths around the limits, everything else being right.
fn lengths(total: &mut Outcomes) {
    let mut class = Class::new("lengths", 0x3217_0005);
    for line in TABLE {
        let longest = calls::longest(&line);
        let past = match line.locator_bits {
            12 => WriterCause::LengthOver4096,
            _ => WriterCause::Length,
        };
        // A right call for 96 bytes with little before the pieces.
        let wish = Wish {
            line: Some(line),
            length: Some(PLACES),
            psd: Some(0),
            ..Wish::default()
        };
        for length in 0..=99 {
            for _ in 0..2 {
                let mut call = class.call(&wish);
                call.length = length;
                let known = match length {
                    0..=27 => Known::Number(refusal::LENGTH),
                    28..=95 => Known::Only(WriterCause::Length),
                    _ => Known::Taken,
                };
                class.check(&call, known);
            }
        }
        for past_it in 0..=40 {
            let mut call = class.call(&wish);
            call.length = longest - past_it;
            call.settings.displaced = false;
            class.check(&call, Known::Taken);
            call.length = longest + 1 + past_it;
            class.check(&call, Known::Only(past));
        }
        let far = [5_000, 8_192, 16_384, 16_385, LONGEST, LONGEST + 1, 20_576];
        let farther = [32_768, 65_535, 65_536, 65_536 + 96, 65_536 + 4_096, 131_072];
        for length in far.into_iter().chain(farther) {
            let mut call = class.call(&wish);
            call.length = length;
            call.settings.displaced = false;
            let known = if length <= longest {
                Known::Taken
            } else {
                Known::Number(refusal::LENGTH)
            };
            class.check(&call, known);
        }
    }
    class.report(total);
}

/// One of the values by the index, which goes on to the next choice.
fn pick<T: Copy>(index: &mut usize, values: &[T]) -> T {
    let picked = values[*index % values.len()];
    *index /= values.len();
    picked
}

/// Refusal 10: every class with every program, access and services, at their
/// edges; what is right is told by the paper's sentences.
fn rules(total: &mut Outcomes) {
    let mut class = Class::new("rules for the expansion", 0x3217_0006);
    let classes = [0, 1, 2, 15, 16, 17, 255].map(Some);
    let programs = [0, 1, 7, 8].map(Some);
    let accesses = [0, 1, 2, 3].map(Some);
    let services = [0, 1, 2, 7, 8, 9].map(Some);
    for case in 0..8 * 5 * 5 * 7 * 2 {
        let mut index = case;
        let class_code = pick(&mut index, &[&[None], &classes[..]].concat());
        let program = pick(&mut index, &[&[None], &programs[..]].concat());
        let access = pick(&mut index, &[&[None], &accesses[..]].concat());
        let services = pick(&mut index, &[&[None], &services[..]].concat());
        let displaced = pick(&mut index, &[false, true]);
        for _ in 0..6 {
            let line = TABLE[class.rng.below(TABLE.len())];
            let settings = Settings {
                class_code,
                program,
                displaced,
                program_type: access.map(|access| ProgramType {
                    access,
                    code: class.rng.byte(),
                }),
                applied: services.map(|services| Applied {
                    services,
                    marker: class.rng.below(1 << 21) as u32,
                }),
                ..Settings::default()
            };
            check_rules(&mut class, line, settings);
        }
    }
    class.report(total);
}

/// Compares on a call with these settings.
fn check_rules(class: &mut Class, line: Line, settings: Settings) {
    let wish = Wish {
        line: Some(line),
        length: Some(class.rng.within(96, 400)),
        settings: Some(settings),
        ..Wish::default()
    };
    let call = class.call(&wish);
    let program = settings.program.unwrap_or(0);
    let access = settings.program_type.map(|field| field.access);
    let services = settings.applied.map_or(0, |field| field.services);
    let right = match settings.class_code {
        None => access != Some(1) && services == 0,
        Some(1) => program != 0 && access == Some(1) && services <= 1,
        Some(_) => false,
    };
    let known = if !right {
        Known::Number(refusal::EXPANSION)
    } else if program > 7 || access.is_some_and(|access| access > 1) {
        Known::Number(refusal::VALUE)
    } else {
        Known::Taken
    };
    class.check(&call, known);
}

/// Refusal 10: each rule broken alone.
fn rules_alone(total: &mut Outcomes) {
    let mut class = Class::new("one rule for the expansion", 0x3217_0007);
    for case in 0..2_500 {
        let mut index = case;
        let line = pick(&mut index, &TABLE);
        let cause = pick(
            &mut index,
            &[
                WriterCause::ClassWithoutProgram,
                WriterCause::ClassWithoutAccess,
                WriterCause::AccessWithoutClass,
                WriterCause::ServicesOver1,
                WriterCause::ServicesWithoutClass,
            ],
        );
        let length = calls::some_length(&mut class.rng, &line);
        let right = some_settings(&mut class.rng, &line, length);
        let wish = Wish {
            line: Some(line),
            length: Some(length),
            settings: Some(breaking(&mut class.rng, right, cause)),
            ..Wish::default()
        };
        let call = class.call(&wish);
        class.check(&call, Known::Only(cause));
    }
    class.report(total);
}

/// Settings that break this rule alone.
fn breaking(rng: &mut Rng, right: Settings, cause: WriterCause) -> Settings {
    let code = rng.byte();
    let access = |access| Some(ProgramType { access, code });
    let marker = rng.below(1 << 21) as u32;
    let services = |services| Some(Applied { services, marker });
    let classed = Settings {
        blend: 0,
        class_code: Some(1),
        program: Some(rng.within(1, 7) as u8),
        program_type: access(1),
        applied: [None, services(0), services(1)][rng.below(3)],
        ..right
    };
    let unclassed = Settings {
        class_code: None,
        program_type: [None, access(0)][rng.below(2)],
        applied: [None, services(0)][rng.below(2)],
        ..right
    };
    match cause {
        WriterCause::ClassWithoutProgram => Settings {
            program: [None, Some(0)][rng.below(2)],
            ..classed
        },
        WriterCause::ClassWithoutAccess => Settings {
            program_type: [None, access(0)][rng.below(2)],
            ..classed
        },
        WriterCause::AccessWithoutClass => Settings {
            program_type: access(1),
            ..unclassed
        },
        WriterCause::ServicesOver1 => Settings {
            applied: services(rng.within(2, 7) as u8),
            ..[classed, unclassed][rng.below(2)]
        },
        _ => Settings {
            applied: services(1),
            ..unclassed
        },
    }
}

/// Refusal 10: the displacement wanted for lengths around 16,384.
fn displacements(total: &mut Outcomes) {
    let mut class = Class::new("displacements", 0x3217_0008);
    for line in TABLE {
        let longest = calls::longest(&line);
        for length in [
            96, 127, 128, 129, 4_095, 4_096, 4_097, 16_383, 16_384, 16_385, 16_386, 20_480,
        ] {
            if length > longest {
                continue;
            }
            for displaced in [false, true] {
                for _ in 0..40 {
                    let settings = Settings {
                        displaced,
                        ..some_settings(&mut class.rng, &line, length)
                    };
                    let wish = Wish {
                        line: Some(line),
                        length: Some(length),
                        settings: Some(settings),
                        ..Wish::default()
                    };
                    let call = class.call(&wish);
                    if displaced && length > 16_384 {
                        class.check(&call, Known::Only(WriterCause::DisplacementTooFar));
                    } else {
                        class.check(&call, Known::Taken);
                    }
                }
            }
        }
    }
    class.report(total);
}

/// Refusal 14: every byte as blend, gain, delay, latency, program and access,
/// every type, and markers around their width.
fn values(total: &mut Outcomes) {
    let mut class = Class::new("values", 0x3217_0009);
    for line in TABLE {
        for value in 0..=255 {
            check_values(&mut class, line, value);
        }
        let most = (1 << 21) - 1;
        for marker in [0, 1, 127, 128, 16_383, 16_384, most - 1, most] {
            for _ in 0..6 {
                check_marker(&mut class, line, marker);
            }
        }
        for marker in [1 << 21, most + 2, 1 << 22, 1 << 28, 1 << 31, u32::MAX] {
            for _ in 0..12 {
                check_marker(&mut class, line, marker);
            }
        }
    }
    class.report(total);
}

/// Compares on a call with these settings, and PSD that goes with them.
fn check_settings(class: &mut Class, line: Line, settings: Settings, known: Known) {
    let wish = Wish {
        line: Some(line),
        length: Some(class.rng.within(96, 400)),
        settings: Some(settings),
        ..Wish::default()
    };
    let call = class.call(&wish);
    class.check(&call, known);
}

/// Known to be refused for this cause alone, or accepted.
fn only_if(refused: bool, cause: WriterCause) -> Known {
    if refused {
        Known::Only(cause)
    } else {
        Known::Taken
    }
}

fn check_values(class: &mut Class, line: Line, value: u8) {
    let past = |value| WriterCause::PastWidth(value);
    let right = some_settings(&mut class.rng, &line, PLACES);
    let settings = Settings {
        common_delay: value,
        ..right
    };
    let known = only_if(value > 63, past(Value::CommonDelay));
    check_settings(class, line, settings, known);
    let settings = Settings {
        latency: value,
        ..right
    };
    let known = only_if(value > 7, past(Value::Latency));
    check_settings(class, line, settings, known);
    let settings = Settings {
        gain: value,
        ..right
    };
    let known = match value {
        7..=23 if line.stream == CORE => Known::Only(WriterCause::CoreGain7To23),
        _ => only_if(value > 31, past(Value::Gain)),
    };
    check_settings(class, line, settings, known);
    let unclassed = Settings {
        class_code: None,
        program: None,
        program_type: None,
        applied: None,
        ..right
    };
    let settings = Settings {
        blend: 0,
        program: Some(value),
        ..unclassed
    };
    let known = only_if(value > 7, past(Value::Program));
    check_settings(class, line, settings, known);
    let program_type = |access, code| Some(ProgramType { access, code });
    let settings = Settings {
        program_type: program_type(value, class.rng.byte()),
        ..unclassed
    };
    let known = match value {
        1 => Known::Only(WriterCause::AccessWithoutClass),
        _ => only_if(value > 1, past(Value::Access)),
    };
    check_settings(class, line, settings, known);
    let settings = Settings {
        program_type: program_type(0, value),
        ..unclassed
    };
    check_settings(class, line, settings, Known::Taken);
    check_blend(class, line, unclassed, value);
}

/// Blend with each program and without one.
fn check_blend(class: &mut Class, line: Line, unclassed: Settings, blend: u8) {
    let right = |program| match (blend, program) {
        (0, _) | (1 | 2, None | Some(0)) => Known::Taken,
        (1 | 2, _) => Known::Only(WriterCause::BlendWithProgram),
        (3, None | Some(0)) => Known::Only(WriterCause::Blend3),
        (_, None | Some(0)) => Known::Only(WriterCause::PastWidth(Value::Blend)),
        _ => Known::Number(refusal::VALUE),
    };
    let repeated = if blend < 5 { 8 } else { 1 };
    for _ in 0..repeated {
        let nonzero = class.rng.within(1, 7) as u8;
        for program in [None, Some(0), Some(nonzero)] {
            let settings = Settings {
                blend,
                program,
                ..unclassed
            };
            check_settings(class, line, settings, right(program));
        }
    }
}

fn check_marker(class: &mut Class, line: Line, marker: u32) {
    let right = some_settings(&mut class.rng, &line, PLACES);
    let services = match right.class_code {
        Some(_) => class.rng.below(2) as u8,
        None => 0,
    };
    let settings = Settings {
        applied: Some(Applied { services, marker }),
        ..right
    };
    let past = WriterCause::PastWidth(Value::Marker);
    check_settings(class, line, settings, only_if(marker >= 1 << 21, past));
}

/// Refusal 15: a packet of a wrong length at any place among those offered,
/// and lengths that don't sum to the bytes.
fn packets(total: &mut Outcomes) {
    let mut class = Class::new("packets", 0x3217_000A);
    for case in 0..5_000 {
        let line = TABLE[case % TABLE.len()];
        let mut call = class.call(&Wish {
            line: Some(line),
            ..Wish::default()
        });
        let count = call.lengths.len();
        let first = usize::from(call.writer.sent > 0);
        if count > first {
            let place = class.rng.within(first, count - 1);
            check_packet_lengths(&mut class, &call, place);
        }
        for wrong in [1, 2, 255, 256, 65_536] {
            let right = call.bytes.clone();
            call.bytes.extend(vec![0; wrong]);
            if wrong < 3 || case % 50 < 10 {
                class.check(&call, Known::Only(WriterCause::LengthsDontSum));
            }
            call.bytes = right.clone();
            if wrong <= right.len() {
                call.bytes.truncate(right.len() - wrong);
                class.check(&call, Known::Only(WriterCause::LengthsDontSum));
            }
            call.bytes = right;
        }
    }
    class.report(total);
}

/// The packet at this place with lengths around 0 and 4,096.
fn check_packet_lengths(class: &mut Class, call: &Call, place: usize) {
    for length in [0, 1, 4_095, 4_096, 4_097, 8_192, 65_535] {
        let mut lengths = call.lengths.clone();
        lengths[place] = length;
        let mut changed = call.clone();
        changed.offer(&mut class.rng, lengths);
        let known = match length {
            0 => Known::Only(WriterCause::PacketLength0),
            4_097.. => Known::Only(WriterCause::PacketLengthOver4096),
            _ => Known::Taken,
        };
        class.check(&changed, known);
    }
}

/// Refusal 15: sums of lengths beyond 16 bits, and once beyond 32 bits.
fn sums(total: &mut Outcomes) {
    let mut class = Class::new("sums of lengths", 0x3217_000B);
    for case in 0..60 {
        let mut call = class.call(&Wish {
            line: Some(TABLE[case % TABLE.len()]),
            lengths: Some(vec![4_096; 15]),
            ..Wish::default()
        });
        // Now the lengths sum to 65,536 and some bytes more.
        let more = class.rng.within(1, 4_000);
        let mut lengths = call.lengths.clone();
        lengths.extend([4_096, more as u16]);
        call.offer(&mut class.rng, lengths);
        class.check(&call, Known::Taken);
        call.bytes.truncate(more);
        class.check(&call, Known::Only(WriterCause::LengthsDontSum));
    }
    // 2 to the power 32.
    let mut call = class.call(&Wish {
        lengths: Some(vec![1]),
        sent: Some(0),
        ..Wish::default()
    });
    call.lengths = vec![4_096; 1 << 20];
    for some in [0, 1, 4_096] {
        call.bytes = some_bytes(&mut class.rng, some);
        class.check(&call, Known::Only(WriterCause::LengthsDontSum));
        call.lengths.truncate(1 << 20);
        call.lengths.push(1);
    }
    class.report(total);
}

/// Refusal 15: the unfinished packet absent, shorter than what was sent of it,
/// as long as that, and longer.
fn unfinished(total: &mut Outcomes) {
    let mut class = Class::new("unfinished packets", 0x3217_000C);
    for case in 0..1_200 {
        let line = TABLE[case % TABLE.len()];
        let mut call = class.call(&Wish {
            line: Some(line),
            ..Wish::default()
        });
        let first = match case % 3 {
            0 => 4_095,
            1 => class.rng.within(2, 4_094),
            _ => class.rng.within(2, 20),
        };
        let mut lengths = call.lengths.clone();
        lengths.insert(0, first as u16);
        call.offer(&mut class.rng, lengths);
        let under = class.rng.below(first);
        for sent in [0, 1, under, first - 1, first, first + 1, 4_095] {
            call.writer.sent = sent.min(4_095) as u16;
            let refused = usize::from(call.writer.sent) >= first;
            class.check(&call, only_if(refused, WriterCause::UnfinishedNotLonger));
        }
        call.offer(&mut class.rng, Vec::new());
        for sent in [0, 1, under, 4_095] {
            call.writer.sent = sent as u16;
            class.check(&call, only_if(sent > 0, WriterCause::UnfinishedAbsent));
        }
    }
    class.report(total);
}

/// Refusal 16: PSD around the mode's column, for every size of expansion.
fn psd_limits(total: &mut Outcomes) {
    let mut class = Class::new("PSD and the mode's column", 0x3217_000D);
    for case in 0..2_000 {
        let line = TABLE[case % TABLE.len()];
        let length = class.rng.within(200, 400);
        let settings = some_settings(&mut class.rng, &line, length);
        let room = line.psd_and_expansion - calls::expansion_size(&settings);
        for psd in [
            0,
            1,
            room - 1,
            room,
            room + 1,
            room + 2,
            128,
            129,
            255,
            256,
            257,
        ] {
            let call = class.call(&Wish {
                line: Some(line),
                length: Some(length),
                settings: Some(settings),
                psd: Some(psd),
                ..Wish::default()
            });
            let known = match (line.psd, psd <= room) {
                (true, true) => Known::Taken,
                (false, _) if psd == 0 => Known::Taken,
                (false, true) => Known::Only(WriterCause::NoPsdHere),
                (true, false) if psd < 160 => Known::Only(WriterCause::PsdPlusExpansionPastColumn),
                _ => Known::Number(refusal::PSD),
            };
            class.check(&call, known);
        }
    }
    for psd in [65_535, 65_536, 65_537, 65_552, 131_072] {
        for line in TABLE {
            let call = class.call(&Wish {
                line: Some(line),
                psd: Some(psd),
                ..Wish::default()
            });
            class.check(&call, Known::Number(refusal::PSD));
        }
    }
    class.report(total);
}

/// Refusal 17: in the modes that can have so much PSD, every length for which
/// the overhead can be too much, and PSD around that, with packets offered and
/// with none.
fn overheads(total: &mut Outcomes) {
    let mut class = Class::new("overhead", 0x3217_000E);
    for line in TABLE
        .into_iter()
        .filter(|line| line.psd_and_expansion == 128)
    {
        for length in 96..=150 {
            for case in 0..12 {
                let settings = some_settings(&mut class.rng, &line, length);
                let expansion = calls::expansion_size(&settings);
                let none = case % 3 == 0;
                // With none offered nothing but the overhead has to fit.
                let (fits, cause, lengths) = if none {
                    let cause = WriterCause::NoRoomForOverhead;
                    (length - 14, cause, Vec::new())
                } else {
                    let packet = class.rng.within(1, 60) as u16;
                    let lengths = vec![packet; class.rng.within(1, 3)];
                    (length - 18, WriterCause::NoRoomForAPiece, lengths)
                };
                for both in [fits - 1, fits, fits + 1, fits + 2, fits + 3, fits + 4, 128] {
                    if both > 128 {
                        continue;
                    }
                    let call = class.call(&Wish {
                        line: Some(line),
                        length: Some(length),
                        settings: Some(settings),
                        psd: Some(both - expansion),
                        lengths: Some(lengths.clone()),
                        ..Wish::default()
                    });
                    class.check(&call, only_if(both > fits, cause));
                }
            }
        }
    }
    class.report(total);
}

/// As many packets as there may be pieces, fewer and more, in PDUs for which
/// they are just enough, too much and too little.
fn piece_limits(total: &mut Outcomes) {
    let mut class = Class::new("limits of pieces", 0x3217_000F);
    for line in TABLE {
        for case in 0..300 {
            let settings = some_settings(&mut class.rng, &line, 300);
            let most = calls::most_psd(&line, &settings, 300);
            // Much PSD lets fewer pieces be.
            let least = [most, most / 8 * 7, 0][class.rng.below(3)];
            let psd = class.rng.within(least, most);
            let mut call = class.call(&Wish {
                line: Some(line),
                length: Some(300),
                settings: Some(settings),
                psd: Some(psd),
                lengths: Some(Vec::new()),
                ..Wish::default()
            });
            check_limit(&mut class, &mut call, line, case);
        }
    }
    class.report(total);
}

/// The limit of this call, with packets of up to so many bytes by the case.
fn check_limit(class: &mut Class, call: &mut Call, line: Line, case: usize) {
    let limit = calls::count_limit(&line, call.psd_and_expansion());
    let count = [limit - 1, limit, limit + 1, limit + 2, 100][case % 5];
    let longest = [1, 2, 5, 40][class.rng.below(4)];
    let mut lengths: Vec<u16> = (0..count)
        .map(|_| some_packet(&mut class.rng, longest))
        .collect();
    if class.rng.below(5) == 0 {
        // The last one that may be placed is long.
        lengths[limit.min(count) - 1] = class.rng.within(100, 4_096) as u16;
    }
    call.writer.sent = calls::some_sent(&mut class.rng, &lengths);
    call.offer(&mut class.rng, lengths);
    let near = length_for(call, line, limit.min(count));
    let longest = calls::longest(&line);
    let more = class.rng.within(near, near + 400);
    for length in [near - 2, near - 1, near, near + 1, near + 3, more, longest] {
        call.length = length.min(longest);
        call.settings.displaced &= call.length <= 16_384;
        class.check(call, Known::Taken);
    }
}

/// The length at which the first so many packets just fit, whole.
fn length_for(call: &Call, line: Line, whole: usize) -> usize {
    let before = 14 + calls::locator_bytes(&line, whole) + call.psd_and_expansion();
    before + sum(&call.lengths[..whole]) - usize::from(call.writer.sent) + whole
}

/// Lengths around those at which so many packets just fit, whole, with others
/// of one, two or more bytes behind them.
fn placing_edges(total: &mut Outcomes) {
    let mut class = Class::new("packets that just fit", 0x3217_0010);
    for case in 0..4_000 {
        let line = TABLE[case % TABLE.len()];
        // In 96 bytes there is room for so much PSD and expansion.
        let limit = calls::count_limit(&line, PLACES - 18);
        let whole = match class.rng.below(4) {
            0 => 1,
            1 => class.rng.within(limit - 2, limit),
            _ => class.rng.within(1, limit),
        };
        let longest = [4, 30, 80, 1_500 / whole + 80][class.rng.below(4)].min(LONGEST_PACKET);
        let mut lengths: Vec<u16> = (0..whole)
            .map(|_| some_packet(&mut class.rng, longest))
            .collect();
        for _ in 0..class.rng.below(4) {
            let next = [1, 2, 3, 4, 100, 4_096][class.rng.below(6)];
            lengths.push(next);
        }
        let settings = some_settings(&mut class.rng, &line, PLACES);
        let mut call = class.call(&Wish {
            line: Some(line),
            lengths: Some(lengths),
            settings: Some(settings),
            length: Some(PLACES),
            ..Wish::default()
        });
        let near = length_for(&call, line, whole);
        for length in near.saturating_sub(4)..near + 8 {
            if (PLACES..=calls::longest(&line)).contains(&length) {
                call.length = length;
                class.check(&call, Known::Taken);
            }
        }
    }
    class.report(total);
}

/// None offered.
fn none_offered(total: &mut Outcomes) {
    let mut class = Class::new("none offered", 0x3217_0011);
    for case in 0..3_000 {
        let line = TABLE[case % TABLE.len()];
        let mut call = class.call(&Wish {
            line: Some(line),
            lengths: Some(Vec::new()),
            ..Wish::default()
        });
        class.check(&call, Known::Taken);
        call.bytes = vec![0; class.rng.within(1, 9)];
        class.check(&call, Known::Only(WriterCause::LengthsDontSum));
    }
    class.report(total);
}

/// Every set of refusals at once: the lowest is answered.
fn several_at_once(total: &mut Outcomes) {
    let mut class = Class::new("several refusals at once", 0x3217_0012);
    for set in 1u32..1 << NUMBERS.len() {
        let numbers: Vec<u32> = (0..NUMBERS.len())
            .filter(|index| (set >> index) & 1 != 0)
            .map(|index| NUMBERS[index])
            .collect();
        for _ in 0..60 {
            check_several(&mut class, &numbers);
        }
    }
    class.report(total);
}

/// Compares on a call with these refusals, lowest first.
fn check_several(class: &mut Class, numbers: &[u32]) {
    let too_much = numbers.contains(&refusal::OVERHEAD);
    let lines: Vec<Line> = TABLE
        .into_iter()
        .filter(|line| !too_much || line.psd_and_expansion == 128)
        .collect();
    let line = lines[class.rng.below(lines.len())];
    let length = class.rng.within(96, 400);
    let mut call = class.call(&Wish {
        line: Some(line),
        length: Some(length),
        ..Wish::default()
    });
    for &number in numbers.iter().rev() {
        spoil(&mut class.rng, &mut call, number);
    }
    // No overhead is too much for a PDU that is too long.
    if too_much && call.length > LONGEST {
        call.length = class.rng.below(PLACES);
    }
    class.check(&call, Known::Number(numbers[0]));
}

/// Calls with anything in them, mostly near to what is right.
fn any_calls(total: &mut Outcomes) {
    let mut class = Class::new("any calls", 0x3217_0013);
    for _ in 0..30_000 {
        let mut call = class.call(&Wish::default());
        for _ in 0..class.rng.within(1, 3) {
            disturb(&mut class.rng, &mut call);
        }
        class.check(&call, Known::Nothing);
    }
    class.report(total);
    assert!(NUMBERS
        .iter()
        .all(|&number| class.outcomes.refused_with(number) > 0));
}

/// All classes of calls.
const CLASSES: [fn(&mut Outcomes); 19] = [
    right,
    chains,
    modes_and_streams,
    states,
    lengths,
    rules,
    rules_alone,
    displacements,
    values,
    packets,
    sums,
    unfinished,
    psd_limits,
    overheads,
    piece_limits,
    placing_edges,
    none_offered,
    several_at_once,
    any_calls,
];

/// The classes all together: at least 100,000 calls, each refusal at least
/// 1,000 times, and each cause that can stand alone.
#[test]
fn writing() {
    let mut total = Outcomes::default();
    for class in CLASSES {
        class(&mut total);
    }
    println!("in all {} calls, {} accepted", total.calls, total.taken);
    for number in NUMBERS {
        let calls = total.refused_with(number);
        println!("refused with {number}: {calls}");
        assert!(calls >= 1_000, "{number}");
    }
    println!("refused for one cause alone: {:?}", total.alone);
    // The others never are alone: sent over 4,095 leaves no packet longer, a
    // class other than 1 clashes with access 1 and with its absence, a class
    // or services past the width are other than 1 and over 1, and a byte has
    // no type past its width.
    assert_eq!(total.alone.len(), 30, "all causes that can be alone");
    assert!(total.alone.values().all(|&calls| calls >= 200));
    println!("accepted by mode and stream: {:?}", total.lines);
    assert_eq!(total.lines.len(), TABLE.len());
    println!("accepted by what the PDU looks like: {:?}", total.looks);
    assert!(total.looks.values().all(|&calls| calls >= 500));
    assert!(total.taken >= 100_000);
    assert!(total.calls >= 200_000);
}

/// Every mode and stream that bytes can say; refused with 5, a writer of
/// mode 255, which no call takes.
#[test]
fn opening() {
    let mut opened = 0;
    for mode in 0..=255 {
        for stream in 0..=255 {
            let answer = writer::open(mode, stream);
            if let Ok(writer) = answer {
                opened += 1;
                let wanted = Writer {
                    mode,
                    stream,
                    register: 0,
                    sequence: 0,
                    number: 0,
                    sent: 0,
                };
                assert_eq!(writer, wanted);
            }
            compare_opening(mode, stream, answer);
        }
    }
    assert_eq!(opened, TABLE.len());
    println!("opening: 65,536 modes and streams, {opened} opened");
}

/// Compares the product's opening with the reference's.
fn compare_opening(mode: u8, stream: u8, wanted: Result<Writer, u32>) {
    let right = product::writer::Opened {
        refusal: wanted.err().unwrap_or(0),
        writer: trial::writer_for(&wanted.unwrap_or(Writer {
            mode: 255,
            ..Writer::default()
        })),
    };
    let answer = product::writer::open(mode, stream);
    assert_eq!(answer, right, "mode {mode}, stream {stream}");
}

/// Offers packets of these lengths in mode 0.
fn in_mode_0(writer: Writer, lengths: &[u16], psd: usize, length: usize) -> Call {
    Call {
        writer,
        settings: Settings::default(),
        psd: vec![0x50; psd],
        lengths: lengths.to_vec(),
        bytes: (0..sum(lengths)).map(|place| place as u8).collect(),
        length,
    }
}

/// The locators of a written PDU.
fn locators(tried: &Tried) -> Vec<usize> {
    let reading = tried.reading.as_ref().expect("an accepted call");
    let end = |piece: &referee::reading::Piece| piece.start + piece.length;
    reading.pieces.iter().map(end).collect()
}

/// Examples (j) to (m), and two more.
#[test]
fn examples() {
    let mut class = Class::new("examples (j) to (m)", 0x3217_0014);
    let fresh = writer::open(0, 0).expect("mode 0, core");
    let j = class.check(&in_mode_0(fresh, &[100], 0, 96), Known::Taken);
    assert_eq!((j.answer.writer.sent, j.answer.ended), (79, 0));
    assert_eq!(locators(&j), [95]);
    assert!(j.reading.as_ref().unwrap().control.plast);
    let writer = j.answer.writer;
    let k = class.check(&in_mode_0(writer, &[100, 50], 0, 96), Known::Taken);
    assert_eq!(locators(&k), [39, 90]);
    assert_eq!(k.reading.as_ref().unwrap().control.start, 1);
    assert_eq!((k.answer.writer.sent, k.answer.ended), (0, 2));
    let l = class.check(&in_mode_0(writer, &[100, 56], 0, 96), Known::Taken);
    assert_eq!((l.answer.writer.sent, l.answer.ended), (55, 1));
    class.check(&in_mode_0(fresh, &[100], 78, 96), Known::Taken);
    let no_room = Known::Only(WriterCause::NoRoomForAPiece);
    class.check(&in_mode_0(fresh, &[100], 79, 96), no_room);
    for (psd, placed) in [(0, 63), (116, 63), (117, 62), (128, 57)] {
        let many = class.check(&in_mode_0(fresh, &[1; 64], psd, 20_480), Known::Taken);
        let control = many.reading.as_ref().unwrap().control;
        assert_eq!((control.nop, control.plast), (placed, false));
        assert_eq!(many.answer.ended, usize::from(placed));
    }
    let mut only_type_5 = in_mode_0(fresh, &[], 0, 96);
    only_type_5.settings.program_type = Some(ProgramType { access: 0, code: 5 });
    let written = class.check(&only_type_5, Known::Taken);
    assert_eq!(written.pdu[14..17], [0x90, 0xA0, 0x05]);
    class.report(&mut Outcomes::default());
}
