//! Compares the product's CRC-8 with the reference: all short messages, and
//! every length from 0 to 20,480; and from each of the 256 values that the
//! register can start at (document 02, Ask 2).

mod lent;
mod product;

use lent::Lent;
use referee::crc;
use referee::rng::Rng;

/// The longest message: no piece is longer than a PDU.
const LONGEST: usize = 20_480;

/// The random numbers for a class of cases; its seed is printed.
fn seeded(class: &str, seed: u64) -> Rng {
    println!("{class}: seed {seed:#x}");
    Rng::new(seed)
}

fn report(class: &str, cases: usize) {
    println!("{class}: {cases} cases");
}

/// Compares the call on one message.
fn check(bytes: &[u8]) {
    assert_eq!(
        product::crc8(bytes),
        crc::crc8(bytes),
        "length {}",
        bytes.len()
    );
}

/// As `check`, on a random message of the length.
fn check_random(rng: &mut Rng, length: usize) {
    let lent = Lent::random(rng, length);
    check(lent.bytes());
}

#[test]
fn examples() {
    assert_eq!(product::crc8(&[0x01]), 0x31, "example (d)");
    assert_eq!(product::crc8(&[0x80]), 0x7A, "example (e)");
    assert_eq!(product::crc8(&[0x01, 0x00]), 0xF4, "example (f)");
    report("CRC, examples (d) to (f)", 3);
}

#[test]
fn short_messages() {
    let mut cases = 0;
    for first in 0..=255 {
        check(&[first]);
        cases += 1;
        for second in 0..=255 {
            check(&[first, second]);
            cases += 1;
        }
    }
    assert_eq!(product::crc8(&[]), 0);
    report("CRC, all messages up to two bytes", cases + 1);
}

#[test]
fn every_length_to_300() {
    let class = "CRC, every length from 0 to 300";
    let mut rng = seeded(class, 0xC8_0001);
    let mut cases = 0;
    for length in 0..=300 {
        for _ in 0..20 {
            check_random(&mut rng, length);
            cases += 1;
        }
    }
    report(class, cases);
}

#[test]
fn long_messages() {
    let class = "CRC, every length from 301 to 20,480";
    let mut rng = seeded(class, 0xC8_0002);
    for length in 301..=LONGEST {
        check_random(&mut rng, length);
    }
    report(class, LONGEST - 300);
}

/// One bit alone, at each place of messages of some lengths: an error at any
/// place shows.
#[test]
fn single_bits() {
    let mut cases = 0;
    for length in [1, 2, 7, 8, 9, 64, 255, 256, 257] {
        for place in 0..length {
            for bit in 0..8 {
                let mut bytes = vec![0; length];
                bytes[place] = 1 << bit;
                check(&bytes);
                cases += 1;
            }
        }
    }
    let mut bytes = vec![0; LONGEST];
    check(&bytes);
    for place in [0, 1, 4_095, 4_096, 16_384, LONGEST - 2, LONGEST - 1] {
        bytes[place] = 0x80;
        check(&bytes);
        bytes[place] = 0;
        cases += 1;
    }
    report("CRC, single bits", cases + 1);
}

/// Compares the call from a start on one message.
fn check_from(start: u8, bytes: &[u8]) {
    assert_eq!(
        product::crc8_from(start, bytes),
        crc::crc8_from(start, bytes),
        "from {start}, length {}",
        bytes.len()
    );
}

/// Known values off the air, where the register starts at 255.
#[test]
fn known_from_255() {
    for (bytes, wanted) in [
        (&[0x01][..], 0x9D),
        (&[0x80], 0xD6),
        (&[0x01, 0x00], 0x75),
        (b"123456789", 0xF7),
    ] {
        assert_eq!(product::crc8_from(255, bytes), wanted, "{bytes:?}");
        assert_eq!(crc::crc8_on_paper(255, bytes), wanted, "{bytes:?}");
    }
    report("CRC from 255, known values", 4);
}

#[test]
fn short_messages_from_each_start() {
    let mut cases = 0;
    for start in 0..=255 {
        assert_eq!(product::crc8_from(start, &[]), start);
        cases += 1;
        for first in 0..=255 {
            check_from(start, &[first]);
            cases += 1;
            for second in 0..=255 {
                check_from(start, &[first, second]);
                cases += 1;
            }
        }
    }
    report("CRC from each start, all messages up to two bytes", cases);
}

/// Each start with every length from 0 to 300 and with longer ones; the same
/// from 0 is the call without a start.
#[test]
fn lengths_from_each_start() {
    let class = "CRC from each start, every length from 0 to 300 and 20 more to 20,480";
    let mut rng = seeded(class, 0xC8_0004);
    let mut cases = 0;
    for start in 0..=255 {
        for length in 0..=300 {
            let lent = Lent::random(&mut rng, length);
            check_from(start, lent.bytes());
            assert_eq!(product::crc8_from(0, lent.bytes()), crc::crc8(lent.bytes()));
            cases += 2;
        }
        for length in [4_095, 4_096, LONGEST - 1, LONGEST] {
            let lent = Lent::random(&mut rng, length);
            check_from(start, lent.bytes());
            cases += 1;
        }
        for _ in 0..16 {
            let length = rng.within(301, LONGEST);
            let lent = Lent::random(&mut rng, length);
            check_from(start, lent.bytes());
            cases += 1;
        }
    }
    report(class, cases);
    assert!(cases >= 100_000);
}

/// A message followed by its own CRC has a CRC of 0, from each start; and what
/// comes before a cut is the start of what comes behind it.
#[test]
fn cut_and_with_its_crc() {
    let class = "CRC from each start, cut, and with its CRC";
    let mut rng = seeded(class, 0xC8_0005);
    let mut cases = 0;
    for start in 0..=255 {
        for _ in 0..40 {
            let mut bytes = vec![0; rng.within(0, 400)];
            rng.fill(&mut bytes);
            let crc = product::crc8_from(start, &bytes);
            let (before, behind) = bytes.split_at(rng.below(bytes.len() + 1));
            let begun = product::crc8_from(start, before);
            assert_eq!(product::crc8_from(begun, behind), crc);
            bytes.push(crc);
            assert_eq!(product::crc8_from(start, &bytes), 0);
            cases += 4;
        }
    }
    report(class, cases);
}

/// A message followed by its own CRC has a CRC of 0.
#[test]
fn with_its_crc() {
    let class = "CRC, with its CRC";
    let mut rng = seeded(class, 0xC8_0003);
    let mut cases = 0;
    for _ in 0..3_000 {
        let mut bytes = vec![0; rng.within(0, 400)];
        rng.fill(&mut bytes);
        bytes.push(product::crc8(&bytes));
        assert_eq!(product::crc8(&bytes), 0);
        cases += 1;
    }
    report(class, cases);
}
