//! Compares the product's reading of PDUs without a receiver with the
//! reference, on PDUs of all modes and streams: right ones, damaged ones, and
//! ones made for each cause of the refusals 3 to 5 and 7 to 12. Each PDU's
//! pieces are listed too.

mod comparison;
mod lent;
mod lists;
mod product;
mod samples;

use comparison::{Class, Known, Outcomes};
use lent::Lent;
use referee::control::{self, MOST_PIECES};
use referee::encode::{Field, Parts};
use referee::expansion::MOST;
use referee::header::{self, Header, LONGEST, PLACES};
use referee::locators;
use referee::modes::{self, Line, TABLE};
use referee::refusal::{self, Cause};
use referee::rng::Rng;
use samples::{field, some_fields, stop, Sample, Wish, FARTHEST};

/// A wish for this line without any displacement.
fn plain(line: Line) -> Wish {
    Wish {
        line: Some(line),
        fields: Some(Vec::new()),
        ..Wish::default()
    }
}

/// Right PDUs of all modes and streams.
fn right(total: &mut Outcomes) {
    let mut class = Class::new("right", 0x6EAD_0001);
    for case in 0..50_000 {
        let wish = Wish {
            line: Some(TABLE[case % TABLE.len()]),
            ..Wish::default()
        };
        let sample = class.sample(&wish);
        class.check_altered(&sample, 0, Known::Taken(sample.reading()));
    }
    class.report(total);
    assert_eq!(class.outcomes.taken, class.outcomes.cases);
}

/// The same with one to four bytes of the header altered.
fn altered(total: &mut Outcomes) {
    let mut class = Class::new("one to four bytes altered", 0x6EAD_0002);
    for case in 0..50_000 {
        let wish = Wish {
            line: Some(TABLE[case % TABLE.len()]),
            ..Wish::default()
        };
        let sample = class.sample(&wish);
        let count = class.rng.within(1, 4);
        class.check_altered(&sample, count, Known::Taken(sample.reading()));
    }
    class.report(total);
    assert_eq!(class.outcomes.taken, class.outcomes.cases);
}

/// Refusal 4: more bytes altered. Now and then another code word is near.
fn beyond_mending(total: &mut Outcomes) {
    let mut class = Class::new("five to twelve bytes altered", 0x6EAD_0003);
    for count in 5..=12 {
        for _ in 0..1_500 {
            let sample = class.sample(&Wish::default());
            class.check_altered(&sample, count, Known::Nothing);
        }
    }
    class.report(total);
    assert!(class.outcomes.refused_with(refusal::BEYOND_MENDING) >= 10_000);
}

/// Refusal 3: lengths around the limits, everything else being right.
fn lengths(total: &mut Outcomes) {
    let mut class = Class::new("lengths", 0x6EAD_0004);
    for length in 0..PLACES {
        for _ in 0..12 {
            // The rest of a right PDU's header stands in the guard.
            let wish = Wish {
                length: Some(PLACES),
                nop: Some(class.rng.below(4)),
                psd: Some(0),
                ..Wish::default()
            };
            let sample = class.sample(&wish);
            let pdu = sample.encode(&[0; PLACES]);
            let mut lent = Lent::random(&mut class.rng, length);
            lent.put_header(&header::header_of(&pdu));
            class.compare(&lent, Known::Only(Cause::Length));
        }
    }
    let mut longer: Vec<usize> = (LONGEST - 60..=LONGEST + 100).collect();
    longer.extend([32_768, 65_535, 65_536, 65_536 + 96, 65_536 + 20_480]);
    for length in longer {
        for _ in 0..6 {
            let wish = Wish {
                length: Some(length),
                ..Wish::default()
            };
            let sample = class.sample(&wish);
            if length <= LONGEST {
                class.check_taken(&sample);
            } else {
                let altered = class.rng.within(0, 8);
                class.check_altered(&sample, altered, Known::Number(refusal::LENGTH));
            }
        }
    }
    class.report(total);
}

/// Refusal 5: every mode with every stream.
fn modes_and_streams(total: &mut Outcomes) {
    let mut class = Class::new("modes and streams", 0x6EAD_0005);
    for mode in 0..16 {
        for stream in 0..4 {
            for _ in 0..120 {
                let line = modes::line_for(mode, stream);
                let wish = Wish {
                    line,
                    ..Wish::default()
                };
                let mut sample = class.sample(&wish);
                sample.parts.control.mode = mode;
                sample.parts.control.stream = stream;
                if line.is_some() {
                    class.check_taken(&sample);
                } else {
                    class.check(&sample, Known::Only(Cause::ModeAndStream));
                }
            }
        }
    }
    class.report(total);
}

/// Refusal 7: every sequence in every mode and stream.
fn sequences(total: &mut Outcomes) {
    let mut class = Class::new("sequences", 0x6EAD_0007);
    for line in TABLE {
        for sequence in 0..8 {
            for _ in 0..100 {
                let wish = Wish {
                    line: Some(line),
                    ..Wish::default()
                };
                let mut sample = class.sample(&wish);
                sample.parts.control.sequence = sequence;
                if sequence < line.sequences {
                    class.check_taken(&sample);
                } else {
                    class.check(&sample, Known::Only(Cause::Sequence));
                }
            }
        }
    }
    class.report(total);
}

/// Every count of pieces in every mode and stream: none is refused for itself
/// (document 02, Ask 9).
fn counts_of_pieces(total: &mut Outcomes) {
    let mut class = Class::new("every NOP", 0x6EAD_0008);
    for line in TABLE {
        for nop in 0..=MOST_PIECES {
            for _ in 0..8 {
                let wish = Wish {
                    line: Some(line),
                    nop: Some(nop),
                    ..Wish::default()
                };
                let sample = class.sample(&wish);
                class.check_taken(&sample);
            }
        }
    }
    class.report(total);
}

/// Refusal 8: Pfirst and Plast without a piece and with one.
fn flags_without_pieces(total: &mut Outcomes) {
    let mut class = Class::new("Pfirst and Plast", 0x6EAD_0108);
    for line in TABLE {
        for flags in 0..8 {
            for _ in 0..100 {
                let nop = flags >> 2;
                let wish = Wish {
                    line: Some(line),
                    nop: Some(nop),
                    ..Wish::default()
                };
                let mut sample = class.sample(&wish);
                sample.parts.control.pfirst = flags & 1 != 0;
                sample.parts.control.plast = flags & 2 != 0;
                match flags {
                    1 => class.check(&sample, Known::Only(Cause::PfirstWithoutPieces)),
                    2 => class.check(&sample, Known::Only(Cause::PlastWithoutPieces)),
                    3 => class.check(&sample, Known::Number(refusal::PIECES)),
                    _ => class.check_taken(&sample),
                }
            }
        }
    }
    class.report(total);
}

/// Refusal 9: La at the last locator byte, one under it, and anywhere under.
fn la_and_locators(total: &mut Outcomes) {
    let mut class = Class::new("La and the last locator byte", 0x6EAD_0009);
    for line in TABLE {
        for nop in 0..=MOST_PIECES {
            for _ in 0..3 {
                let wish = Wish {
                    nop: Some(nop),
                    psd: Some(0),
                    ..plain(line)
                };
                let mut sample = class.sample(&wish);
                let last = sample.last_locator_byte();
                assert_eq!(usize::from(sample.parts.control.la), last);
                class.check_taken(&sample);
                for la in [last - 1, class.rng.below(last)] {
                    sample.parts.control.la = la as u8;
                    class.check(&sample, Known::Only(Cause::LaBeforeLastLocatorByte));
                }
            }
        }
    }
    class.report(total);
}

/// Refusal 9: La around the length of short PDUs.
fn la_and_length(total: &mut Outcomes) {
    let mut class = Class::new("La and the length", 0x6EAD_0109);
    for length in PLACES..=257 {
        for case in 0..20 {
            let id = class.rng.below(3) as u8;
            let fields = match case % 2 {
                0 => Vec::new(),
                _ => vec![field(&mut class.rng, id, false)],
            };
            let wish = Wish {
                nop: Some(0),
                psd: Some(256),
                length: Some(length),
                fields: Some(fields),
                ..Wish::default()
            };
            let mut sample = class.sample(&wish);
            let la = usize::from(sample.parts.control.la);
            assert_eq!(la, 255.min(length - 1));
            class.check_taken(&sample);
            for la in [length, length + 1, 255] {
                if (length..256).contains(&la) {
                    sample.parts.control.la = la as u8;
                    class.check(&sample, Known::Only(Cause::LaNotBelowLength));
                }
            }
        }
    }
    class.report(total);
}

/// The same with pieces, which then don't fit: La below the length is 11,
/// otherwise 9.
fn la_and_length_with_pieces(total: &mut Outcomes) {
    let mut class = Class::new("La and the length, with pieces", 0x6EAD_0209);
    for length in PLACES..=255 {
        for la in [length - 2, length - 1, length, 255] {
            let wish = Wish {
                nop: Some(class.rng.within(1, 3)),
                length: Some(length),
                fields: Some(Vec::new()),
                ..Wish::default()
            };
            let mut sample = class.sample(&wish);
            sample.parts.control.la = la as u8;
            let number = if la < length {
                refusal::LOCATOR
            } else {
                refusal::LA
            };
            class.check(&sample, Known::Number(number));
        }
    }
    class.report(total);
}

/// Refusal 10: so many expansion bytes, all before La.
fn expansion_sizes(total: &mut Outcomes) {
    let mut class = Class::new("expansion sizes", 0x6EAD_000A);
    for line in TABLE {
        for size in (1..=20).chain([31, 32, 33, 47, 64]) {
            for _ in 0..12 {
                let wish = Wish {
                    line: Some(line),
                    fields: Some(fields_of_size(&mut class.rng, size)),
                    ..Wish::default()
                };
                let sample = class.sample(&wish);
                if size <= MOST {
                    class.check_taken(&sample);
                } else {
                    class.check(&sample, Known::Only(Cause::ExpansionOver16Bytes));
                }
            }
        }
    }
    class.report(total);
}

/// Right fields of so many bytes together, or too many at the end.
fn fields_of_size(rng: &mut Rng, size: usize) -> Vec<Field> {
    let mut fields = Vec::new();
    let mut left = size;
    for id in [0, 1, 2] {
        if rng.below(2) == 0 && left > 1 {
            let next = field(rng, id, false);
            if next.bytes().len() < left {
                left -= next.bytes().len();
                fields.push(next);
            }
        }
    }
    let id = rng.within(3, 7) as u8;
    fields.push(stop(rng, id, left));
    fields
}

/// Refusal 10: La at the last expansion byte, or so many bytes before it.
fn expansion_and_la(total: &mut Outcomes) {
    let mut class = Class::new("expansion and La", 0x6EAD_010A);
    for case in 0..3_000 {
        let fields = loop {
            let fields = some_fields(&mut class.rng);
            if !fields.is_empty() {
                break fields;
            }
        };
        let wish = Wish {
            line: Some(TABLE[case % TABLE.len()]),
            psd: Some(0),
            fields: Some(fields),
            length: Some(class.rng.within(96, 1_000)),
            ..Wish::default()
        };
        let mut sample = class.sample(&wish);
        class.check_taken(&sample);
        let size = sample.parts.expansion.len();
        let la = sample.parts.control.la;
        for under in [1, size, class.rng.within(1, size)] {
            sample.parts.control.la = la - under as u8;
            class.check(&sample, Known::Only(Cause::ExpansionPastLa));
        }
    }
    class.report(total);
}

/// Refusal 10: the locators leave from 0 to 20 bytes before the end of a PDU
/// of 96 bytes, La is its last byte, and all expansion bytes say that another
/// follows. The pieces don't fit either.
fn expansion_and_end(total: &mut Outcomes) {
    let mut class = Class::new("expansion to the PDU's end", 0x6EAD_020A);
    for line in TABLE {
        let bits = line.locator_bits;
        for nop in 0..=MOST_PIECES {
            let last = locators::last_byte(bits, nop);
            if last >= PLACES {
                break;
            }
            for la in [PLACES - 1, last] {
                let wish = Wish {
                    nop: Some(nop),
                    ..plain(line)
                };
                let mut sample = class.sample(&wish);
                sample.length = PLACES;
                sample.parts.control.expansion = true;
                sample.parts.control.la = la as u8;
                sample.parts.pieces.clear();
                sample.parts.psd.clear();
                let first = class.rng.within(5, 7) as u8 * 16 + 128;
                sample.parts.expansion = vec![first; PLACES - 1 - last];
                class.check(&sample, Known::Number(refusal::EXPANSION));
            }
        }
    }
    class.report(total);
}

/// A field of this kind: 0 to 4 are the interpreted ones, 5 to 9 the others.
fn field_of_kind(rng: &mut Rng, kind: usize) -> (u8, Field) {
    let id = [0, 1, 1, 2, 4, 3, 4, 5, 6, 7][kind];
    let made = if kind < 5 {
        field(rng, id, kind == 2)
    } else {
        stop(rng, id, 1)
    };
    (id, made)
}

/// Refusal 10: every pair of fields in either order, after a third or not.
fn expansion_order(total: &mut Outcomes) {
    let mut class = Class::new("expansion order", 0x6EAD_030A);
    for first in 0..5 {
        for second in 0..10 {
            for before in 0..10 {
                for _ in 0..12 {
                    let mut kinds = vec![first, second];
                    if before < 5 {
                        kinds.insert(0, before);
                    }
                    check_order(&mut class, &kinds);
                }
            }
        }
    }
    class.report(total);
}

/// Compares on a sample with fields of these kinds, the last of which may be
/// one that isn't interpreted.
fn check_order(class: &mut Class, kinds: &[usize]) {
    let (ids, fields): (Vec<u8>, Vec<Field>) = kinds
        .iter()
        .map(|&kind| field_of_kind(&mut class.rng, kind))
        .unzip();
    let wish = Wish {
        fields: Some(fields),
        length: Some(class.rng.within(96, 1_000)),
        ..Wish::default()
    };
    let sample = class.sample(&wish);
    if ids.windows(2).all(|pair| pair[0] < pair[1]) {
        class.check_taken(&sample);
    } else {
        class.check(&sample, Known::Only(Cause::FieldOrder));
    }
}

/// Refusal 10: class 0, alone and before other fields; every other class.
fn classes(total: &mut Outcomes) {
    let mut class = Class::new("classes", 0x6EAD_040A);
    for code in 0..16 {
        for case in 0..150 {
            let mut fields = vec![Field::Class(code)];
            if case % 3 > 0 {
                let kind = class.rng.within(1, 9);
                fields.push(field_of_kind(&mut class.rng, kind).1);
            }
            let wish = Wish {
                fields: Some(fields),
                length: Some(class.rng.within(96, 1_000)),
                ..Wish::default()
            };
            let sample = class.sample(&wish);
            if code == 0 {
                for _ in 0..8 {
                    class.check(&sample, Known::Only(Cause::ClassZero));
                }
            } else {
                class.check_taken(&sample);
            }
        }
    }
    class.report(total);
}

/// Refusal 10: each longer field cut after each of its bytes, with and
/// without PSD behind it that would go on with it.
fn cut_fields(total: &mut Outcomes) {
    let mut class = Class::new("cut fields", 0x6EAD_050A);
    for (kind, size) in [(2, 3), (3, 2), (4, 4)] {
        for kept in 1..=size {
            for case in 0..300 {
                let (id, whole) = field_of_kind(&mut class.rng, kind);
                let mut fields = Vec::new();
                if case % 2 == 0 && id > 0 {
                    fields.push(field(&mut class.rng, 0, false));
                }
                if kept == size {
                    fields.push(whole);
                } else {
                    fields.push(Field::Other(whole.bytes()[..kept].to_vec()));
                }
                let wish = Wish {
                    fields: Some(fields),
                    psd: Some(class.rng.below(6)),
                    length: Some(class.rng.within(96, 1_000)),
                    ..Wish::default()
                };
                let sample = class.sample(&wish);
                if kept == size {
                    class.check_taken(&sample);
                } else {
                    class.check(&sample, Known::Only(Cause::FieldCut));
                }
            }
        }
    }
    class.report(total);
}

/// Refusal 10: behind each ID at which interpretation stops, any bytes go as
/// long as the 16 bytes and La are kept.
fn after_a_stop(total: &mut Outcomes) {
    let mut class = Class::new("after interpretation stops", 0x6EAD_060A);
    for id in 3..8 {
        for size in 1..=MOST + 1 {
            for case in 0..60 {
                let kind = class.rng.below(4);
                let before = field_of_kind(&mut class.rng, kind).1;
                let mut fields = Vec::new();
                if case % 2 == 0 && before.bytes().len() < size {
                    fields.push(before);
                }
                let left = size - fields.iter().map(|f| f.bytes().len()).sum::<usize>();
                fields.push(stop(&mut class.rng, id, left));
                let wish = Wish {
                    fields: Some(fields),
                    psd: Some(class.rng.below(3)),
                    length: Some(class.rng.within(96, 1_000)),
                    ..Wish::default()
                };
                let mut sample = class.sample(&wish);
                if size > MOST {
                    class.check(&sample, Known::Only(Cause::ExpansionOver16Bytes));
                    continue;
                }
                class.check_taken(&sample);
                sample.parts.control.la -= sample.parts.psd.len() as u8 + 1;
                class.check(&sample, Known::Only(Cause::ExpansionPastLa));
            }
        }
    }
    class.report(total);
}

/// Refusal 11: each locator of each mode and stream too low by one or more.
fn low_locators(total: &mut Outcomes) {
    let mut class = Class::new("locators too low", 0x6EAD_000B);
    for line in TABLE {
        for k in 0..MOST_PIECES {
            for _ in 0..6 {
                let wish = Wish {
                    nop: Some(class.rng.within(k + 1, MOST_PIECES)),
                    ..plain(line)
                };
                let mut sample = class.sample(&wish);
                let la = usize::from(sample.parts.control.la);
                let right = sample.parts.locators[k];
                let start = locators::starts(la, &sample.parts.locators)[k];
                for low in [start, start - 1, class.rng.below(start), 0] {
                    sample.parts.locators[k] = low;
                    class.check(&sample, Known::Only(Cause::LocatorUnderStart(k)));
                }
                // The least right one is the place behind the start.
                if k + 1 == sample.parts.locators.len() || right == start + 1 {
                    sample.parts.locators[k] = start + 1;
                    sample.parts.pieces[k].bytes.truncate(1);
                    class.check_taken(&sample);
                }
            }
        }
    }
    class.report(total);
}

/// Refusal 11: each locator of each mode and stream too high, the last one
/// also at the PDU's last byte.
fn high_locators(total: &mut Outcomes) {
    let mut class = Class::new("locators too high", 0x6EAD_010B);
    for line in TABLE {
        let highest = (1 << line.locator_bits) - 1;
        for k in 0..MOST_PIECES {
            for _ in 0..4 {
                let last = class.rng.below(2) == 0;
                let nop = if last {
                    k + 1
                } else {
                    class.rng.within(k + 1, MOST_PIECES)
                };
                let wish = Wish {
                    nop: Some(nop),
                    unused: Some(0),
                    ..plain(line)
                };
                let mut sample = class.sample(&wish);
                class.check_taken(&sample);
                for high in [sample.length, sample.length + 1, highest] {
                    sample.parts.locators[k] = high;
                    check_high_locator(&mut class, &sample, k);
                }
            }
        }
    }
    class.report(total);
}

/// Compares on a sample of which locator k is changed to a high value.
fn check_high_locator(class: &mut Class, sample: &Sample, k: usize) {
    let locator = sample.parts.locators[k];
    let can_say = locator < 1 << sample.line.locator_bits;
    let last = k + 1 == sample.parts.locators.len();
    let known = match (can_say && locator >= sample.length, last) {
        (true, true) => Known::Only(Cause::LocatorNotBelowLength(k)),
        (true, false) => Known::Number(refusal::LOCATOR),
        // The low bits alone are sent, or the PDU is longer than they reach.
        (false, _) => Known::Nothing,
    };
    class.check(sample, known);
}

/// Refusal 11: a locator after a wrong one is judged from it as sent, up to
/// the highest that the bits can say.
fn locators_after_wrong_ones(total: &mut Outcomes) {
    let mut class = Class::new("locators after wrong ones", 0x6EAD_020B);
    for case in 0..6_000 {
        let line = TABLE[case % TABLE.len()];
        let wish = Wish {
            nop: Some(class.rng.within(2, MOST_PIECES)),
            ..plain(line)
        };
        let mut sample = class.sample(&wish);
        let count = sample.parts.locators.len();
        let k = class.rng.below(count - 1);
        let highest = (1 << line.locator_bits) - 1;
        sample.parts.locators[k] = match case % 3 {
            0 => highest,
            1 => class.rng.within(sample.length.min(highest), highest),
            _ => class.rng.below(usize::from(sample.parts.control.la)),
        };
        let from = sample.parts.locators[k];
        sample.parts.locators[k + 1] = match class.rng.below(4) {
            0 => class.rng.below(3),
            1 => (from + 1) & highest,
            2 => (from + 2) & highest,
            _ => sample.parts.locators[k + 1],
        };
        class.check(&sample, Known::Nothing);
    }
    class.report(total);
}

/// Refusal 12: displacements around the last piece's end and the length, and
/// 0, among other fields, with and without pieces.
fn displacements(total: &mut Outcomes) {
    let mut class = Class::new("displacements", 0x6EAD_000C);
    for case in 0..2_400 {
        let line = TABLE[case % TABLE.len()];
        let mut fields = vec![field(&mut class.rng, 1, true)];
        if class.rng.below(2) == 0 {
            let kind = class.rng.within(3, 9);
            fields.push(field_of_kind(&mut class.rng, kind).1);
        }
        if class.rng.below(4) == 0 {
            fields.insert(0, field(&mut class.rng, 0, false));
        }
        let some_pieces = class.rng.within(0, MOST_PIECES);
        let unused = class.rng.below(4);
        let wish = Wish {
            line: Some(line),
            fields: Some(fields),
            nop: [Some(0), Some(1), None, Some(some_pieces)][case / TABLE.len() % 4],
            unused: [Some(unused), None][class.rng.below(2)],
            ..Wish::default()
        };
        let sample = class.sample(&wish);
        if sample.has_displacement() {
            check_displacements(&mut class, sample);
        }
    }
    class.report(total);
}

/// Compares on the sample with other displacements.
fn check_displacements(class: &mut Class, mut sample: Sample) {
    let end = sample.end();
    let length = sample.length;
    for place in [
        0,
        end - 1,
        end,
        end + 1,
        length - 1,
        length,
        length + 1,
        FARTHEST,
        class.rng.within(0, FARTHEST),
    ] {
        if place > FARTHEST {
            continue;
        }
        sample.set_displacement(place);
        if place < end {
            class.check(&sample, Known::Only(Cause::DisplacementBeforeEnd));
        } else if place >= length {
            class.check(&sample, Known::Only(Cause::DisplacementNotBelowLength));
        } else {
            class.check_taken(&sample);
        }
    }
}

/// The numbers that reading can answer.
const NUMBERS: [u32; 9] = [3, 4, 5, 7, 8, 9, 10, 11, 12];

/// Every set of refusals at once: the lowest is answered.
fn several_at_once(total: &mut Outcomes) {
    let mut class = Class::new("several refusals at once", 0x6EAD_000D);
    for set in 1u32..1 << NUMBERS.len() {
        let numbers: Vec<u32> = (0..NUMBERS.len())
            .filter(|index| (set >> index) & 1 != 0)
            .map(|index| NUMBERS[index])
            .collect();
        for _ in 0..40 {
            check_several(&mut class, &numbers);
        }
    }
    class.report(total);
}

/// Compares on a sample with these refusals, lowest first.
fn check_several(class: &mut Class, numbers: &[u32]) {
    let sample = spoiled(class, numbers);
    let pdu = sample.encode(&vec![0; sample.length]);
    let wrong_length = numbers.contains(&refusal::LENGTH);
    let beyond = numbers.contains(&refusal::BEYOND_MENDING);
    let length = match sample.length {
        length if wrong_length && length <= LONGEST => class.rng.below(PLACES),
        length => length,
    };
    let mut lent = Lent::random(&mut class.rng, length);
    lent.put_header(&header::header_of(&pdu));
    lent.bytes_mut().copy_from_slice(&pdu[..length]);
    if length >= PLACES {
        let altered = if beyond { 5 } else { 0 } + class.rng.below(5);
        class.alter(&mut lent, altered);
    }
    // A header altered in five bytes or more can be near another code word.
    if beyond && !wrong_length {
        class.compare(&lent, Known::Nothing);
    } else {
        class.compare(&lent, Known::Number(numbers[0]));
    }
}

/// A sample with these refusals from 5 on. With 3 half of them are too long.
fn spoiled(class: &mut Class, numbers: &[u32]) -> Sample {
    let line = loop {
        let line = TABLE[class.rng.below(TABLE.len())];
        if line.sequences == 2 || !numbers.contains(&refusal::SEQUENCE) {
            break line;
        }
    };
    let displaced = field(&mut class.rng, 1, true);
    let wish = Wish {
        line: Some(line),
        nop: Some(class.rng.within(1, MOST_PIECES)),
        fields: Some(vec![displaced]),
        length: Some(class.rng.within(96, 1_500)),
        ..Wish::default()
    };
    let mut sample = class.sample(&wish);
    for &number in numbers {
        spoil(&mut class.rng, &mut sample, number);
    }
    if numbers.contains(&refusal::LENGTH) && class.rng.below(2) == 0 {
        sample.length = class.rng.within(LONGEST + 1, LONGEST + 40);
    }
    sample
}

/// Makes the refusal apply, from 5 on, and no lower one.
fn spoil(rng: &mut Rng, sample: &mut Sample, number: u32) {
    let length = sample.length;
    let word = &mut sample.parts.control;
    match number {
        refusal::MODE_AND_STREAM => {
            while modes::line_for(word.mode, word.stream).is_some() {
                word.mode = rng.below(16) as u8;
                word.stream = rng.below(4) as u8;
            }
        }
        refusal::SEQUENCE => word.sequence = rng.within(2, 7) as u8,
        refusal::PIECES => {
            word.nop = 0;
            word.pfirst = rng.below(2) == 0;
            word.plast = !word.pfirst;
        }
        refusal::LA if length < 256 && rng.below(2) == 0 => {
            word.la = rng.within(length, 255) as u8;
        }
        refusal::LA => word.la = rng.below(13) as u8,
        refusal::EXPANSION => {
            sample.fields.insert(0, Field::Class(0));
            sample.write_fields();
        }
        refusal::LOCATOR => {
            let k = rng.below(sample.parts.locators.len());
            sample.parts.locators[k] = rng.below(14);
        }
        refusal::DISPLACEMENT => sample.set_displacement([0, length][rng.below(2)]),
        _ => {}
    }
}

/// Right PDUs with some bits turned from the control word on, and right
/// parity: near to right, with what comes along.
fn turned_bits(total: &mut Outcomes) {
    let mut class = Class::new("some bits turned", 0x6EAD_000E);
    for _ in 0..40_000 {
        let wish = Wish {
            length: Some(class.rng.within(96, 700)),
            ..Wish::default()
        };
        let sample = class.sample(&wish);
        let mut lent = Lent::random(&mut class.rng, sample.length);
        let pdu = sample.encode(lent.bytes());
        lent.bytes_mut().copy_from_slice(&pdu);
        let first_piece = usize::from(sample.parts.control.la) + 1;
        let last = [control::FIRST + control::BYTES - 1, first_piece.min(95)][class.rng.below(2)];
        for _ in 0..class.rng.within(1, 3) {
            let place = class.rng.within(control::FIRST, last);
            lent.bytes_mut()[place] ^= 1 << class.rng.below(8);
        }
        header::write_parity(lent.bytes_mut()).expect("a right length");
        let altered = class.rng.below(5);
        class.alter(&mut lent, altered);
        class.compare(&lent, Known::Nothing);
    }
    class.report(total);
    assert!(NUMBERS[2..]
        .iter()
        .all(|&number| class.outcomes.refused_with(number) > 0));
}

/// Any control word, mostly one that isn't refused at once, before any bytes.
fn any_words(total: &mut Outcomes) {
    let mut class = Class::new("any words", 0x6EAD_000F);
    for case in 0..30_000 {
        let line = TABLE[class.rng.below(TABLE.len())];
        let mut bytes = [0; control::BYTES];
        class.rng.fill(&mut bytes);
        let mut word = control::decode(&bytes);
        if case % 4 > 0 {
            word.mode = line.mode;
            word.stream = line.stream;
            word.sequence %= line.sequences;
            word.nop = class.rng.below(5) as u8;
            word.pfirst &= word.nop > 0;
            word.plast &= word.nop > 0;
            word.la = class.rng.within(13, 60) as u8;
        }
        let length = class.rng.within(96, 300);
        let mut lent = Lent::random(&mut class.rng, length);
        if case % 8 == 0 {
            // Small locators, and short expansions.
            lent.bytes_mut().iter_mut().for_each(|byte| *byte &= 0x7F);
        }
        let parts = Parts {
            control: word,
            locator_bits: line.locator_bits,
            ..Parts::default()
        };
        parts.encode(lent.bytes_mut());
        class.compare(&lent, Known::Nothing);
    }
    class.report(total);
}

/// All classes of cases.
const CLASSES: [fn(&mut Outcomes); 25] = [
    right,
    altered,
    beyond_mending,
    lengths,
    modes_and_streams,
    sequences,
    counts_of_pieces,
    flags_without_pieces,
    la_and_locators,
    la_and_length,
    la_and_length_with_pieces,
    expansion_sizes,
    expansion_and_la,
    expansion_and_end,
    expansion_order,
    classes,
    cut_fields,
    after_a_stop,
    low_locators,
    high_locators,
    locators_after_wrong_ones,
    displacements,
    several_at_once,
    turned_bits,
    any_words,
];

/// The classes all together: at least 300,000 PDUs, each refusal at least
/// 1,000 times, and each single cause of the table's rows alone.
#[test]
fn reading() {
    let mut total = Outcomes::default();
    for class in CLASSES {
        class(&mut total);
    }
    println!("in all {} cases, {} accepted", total.cases, total.taken);
    for number in NUMBERS {
        let cases = total.refused_with(number);
        println!("refused with {number}: {cases}");
        assert!(cases >= 1_000, "{number}");
    }
    println!("refused for one cause alone: {:?}", total.alone);
    assert_eq!(total.alone.len(), 17, "all causes");
    assert!(total.alone.values().all(|&cases| cases >= 500));
    assert!(total.taken >= 100_000);
    assert!(total.cases >= 300_000);
    let lists = &total.lists;
    lists.report();
    assert_eq!(lists.calls, total.cases);
    for number in NUMBERS.into_iter().chain([refusal::LOG]) {
        let calls = lists.refused_with(number);
        println!("lists refused with {number}: {calls}");
        assert!(calls >= 1_000, "{number}");
    }
    assert!(lists.taken >= 50_000);
    assert!(lists.looks.values().all(|&calls| calls >= 300));
}

/// A PDU of 96 bytes beginning with these, in hexadecimal.
fn from_hex(hex: &str) -> Header {
    let digits: Vec<u32> = hex.chars().filter_map(|c| c.to_digit(16)).collect();
    let mut bytes = [0; PLACES];
    for (byte, pair) in bytes.iter_mut().zip(digits.chunks(2)) {
        *byte = (pair[0] * 16 + pair[1]) as u8;
    }
    bytes
}

/// Single PDUs of 96 bytes with their refusals and displacements.
#[test]
fn single_pdus() {
    let mut class = Class::new("single PDUs", 0x6EAD_0010);
    for (hex, number, displacement) in [
        ("", refusal::LA, 0),
        ("c2c7dacd63c6d064 00000000000d", 0, 0),
        ("4aac5a8c1b4a49aa 000000008212140091801301 31", 12, 0),
        ("e9d3f21d09b541a0 000000008212140091801401 31", 0, 20),
        ("d007c099d1bebed3 0000000080109180 10", 0, 16),
        ("0cc2a18813ded908 0000000080109180 0f", 12, 0),
        ("c65b7fd2d47f560b 000000008011b0918000", 0, 0),
    ] {
        let pdu = from_hex(hex);
        assert!(header::is_code_word(&pdu), "{hex}");
        for altered in 0..=4 {
            let mut lent = Lent::random(&mut class.rng, PLACES);
            lent.put_header(&pdu);
            class.alter(&mut lent, altered);
            let answer = class.compare(&lent, Known::Nothing);
            assert_eq!(answer.refusal, number, "{hex}");
            assert_eq!(answer.expansion.displacement, displacement, "{hex}");
        }
    }
    class.report(&mut Outcomes::default());
}

/// The PDU with these bytes from the control word on, and right parity.
fn with_parity(class: &mut Class, length: usize, bytes: &[u8]) -> Lent {
    let mut lent = Lent::random(&mut class.rng, length);
    lent.bytes_mut().fill(0);
    let end = control::FIRST + bytes.len();
    lent.bytes_mut()[control::FIRST..end].copy_from_slice(bytes);
    header::write_parity(lent.bytes_mut()).expect("a right length");
    lent
}

/// Examples (a) to (c), and locators judged from wrong ones.
#[test]
fn examples() {
    let mut class = Class::new("examples (a), (b), (c)", 0x6EAD_0011);
    let a_and_b = [0x40, 0x04, 0x05, 0x0B, 0x05, 0x11, 0x2C, 0x01, 0xBC, 0x02];
    let lent = with_parity(&mut class, 701, &a_and_b);
    let answer = class.compare(&lent, Known::Nothing);
    assert_eq!((answer.control.start, answer.control.latency), (33, 4));
    assert_eq!((answer.psd_start, answer.psd_length), (18, 0));
    assert_eq!(answer.starts[..3], [18, 301, 0]);
    assert_eq!(answer.lengths[..3], [282, 399, 0]);
    let c = [0x41, 0x04, 0x05, 0x0B, 0x05, 0x11, 0x2C, 0xC1, 0x2B];
    let lent = with_parity(&mut class, 701, &c);
    let answer = class.compare(&lent, Known::Nothing);
    assert_eq!((answer.psd_start, answer.psd_length), (17, 1));
    assert_eq!(answer.starts[..3], [18, 301, 0]);
    assert_eq!(answer.lengths[..3], [282, 399, 0]);
    // Locators 100, 30 and 40: the last one is right. 50, 100 and 30: the first
    // one is.
    for (locators, k) in [([100, 30, 40], 0), ([50, 100, 30], 1)] {
        let [a, b, c] = locators;
        let wrong = [0, 0, 0, 0, 6, 19, a, 0, b, 0, c, 0];
        let lent = with_parity(&mut class, 96, &wrong);
        let answer = class.compare(&lent, Known::Number(refusal::LOCATOR));
        assert_eq!(answer.wrong_locator, k);
    }
    class.report(&mut Outcomes::default());
}
