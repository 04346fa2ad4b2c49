//! Compares the product's parity as bytes arrive (document 02, Ask 8) with the
//! reference: every byte at every place, headers filled in any order, bytes that
//! change, and every place that is refused, up to a bound and around each power
//! of two.

mod lent;
mod product;

use product::shares::add_parity_share;
use referee::header::{parity, parity_by_division, Header, PLACES, SUMS};
use referee::rng::Rng;
use referee::shares;
use std::cell::Cell;

/// Headers filled in a random order.
const HEADERS: usize = 10_000;

/// Places that are all tried.
const TRIED: usize = 1 << 17;

thread_local! {
    /// How many calls were compared.
    static COMPARED: Cell<u64> = const { Cell::new(0) };
}

/// The random numbers for a class of cases; its seed is printed.
fn seeded(class: &str, seed: u64) -> Rng {
    println!("{class}: seed {seed:#x}");
    Rng::new(seed)
}

/// Says how many calls of a class were compared.
fn report(class: &str) {
    println!("{class}: {} calls compared", COMPARED.replace(0));
}

/// Any eight bytes.
fn eight(rng: &mut Rng) -> [u8; SUMS] {
    rng.bits().to_le_bytes()
}

/// Any header, its parity bytes too.
fn header(rng: &mut Rng) -> Header {
    let mut header = [0; PLACES];
    rng.fill(&mut header);
    header
}

/// The reference's shares of every byte at places 8 to 95.
fn all_shares() -> Vec<Vec<[u8; SUMS]>> {
    (0..PLACES)
        .map(|place| match shares::check_place(place) {
            Ok(()) => (0..=255).map(|byte| shares::share(place, byte)).collect(),
            Err(_) => Vec::new(),
        })
        .collect()
}

/// A call of the product, which is to answer this.
fn check(parity: [u8; SUMS], place: usize, byte: u8, answer: Result<[u8; SUMS], u32>) {
    let (refusal, values) = match answer {
        Ok(values) => (0, values),
        Err(number) => (number, parity),
    };
    let given = add_parity_share(parity, place, byte);
    assert_eq!(given, (refusal, values), "place {place}, byte {byte}");
    COMPARED.set(COMPARED.get() + 1);
}

#[test]
fn every_byte_at_every_place() {
    let mut rng = seeded("shares, every byte at every place", 0x5A_0002);
    for place in SUMS..PLACES {
        for byte in 0..=255 {
            let share = shares::share(place, byte);
            check([0; SUMS], place, byte, Ok(share));
            let before = eight(&mut rng);
            check(before, place, byte, shares::add(before, place, byte));
        }
    }
    assert_eq!(COMPARED.get(), 2 * 88 * 256);
    report("shares, every byte at every place");
}

/// The places 8 to 95 in a random order.
fn shuffled(rng: &mut Rng) -> Vec<usize> {
    let mut places: Vec<usize> = (SUMS..PLACES).collect();
    for last in (1..places.len()).rev() {
        places.swap(last, rng.below(last + 1));
    }
    places
}

/// Fills a header in this order; every answer is compared, and the last one is
/// the parity.
fn fill(shares: &[Vec<[u8; SUMS]>], header: &Header, places: &[usize]) {
    let mut sum = [0; SUMS];
    for &place in places {
        let byte = header[place];
        let next = shares::sum(sum, shares[place][usize::from(byte)]);
        check(sum, place, byte, Ok(next));
        sum = next;
    }
    assert_eq!(sum, parity_by_division(header));
    assert_eq!(sum, parity(header));
    assert_eq!(sum, product::parity(header));
}

#[test]
fn any_order() {
    let mut rng = seeded("shares, any order", 0x5A_0003);
    let shares = all_shares();
    let rising: Vec<usize> = (SUMS..PLACES).collect();
    let falling: Vec<usize> = (SUMS..PLACES).rev().collect();
    for places in [rising, falling] {
        fill(&shares, &header(&mut rng), &places);
    }
    for _ in 0..HEADERS {
        let places = shuffled(&mut rng);
        fill(&shares, &header(&mut rng), &places);
    }
    report("shares, any order, 10,002 headers");
}

/// A byte that changes once all shares were added: the share of the difference.
#[test]
fn a_byte_changed() {
    let mut rng = seeded("shares, a byte changed", 0x5A_0004);
    for _ in 0..HEADERS {
        let mut header = header(&mut rng);
        let place = rng.within(SUMS, PLACES - 1);
        let byte = rng.byte();
        let before = parity(&header);
        let difference = header[place] ^ byte;
        header[place] = byte;
        check(before, place, difference, Ok(parity(&header)));
    }
    report("shares, a byte changed");
}

#[test]
fn places_refused() {
    let mut rng = seeded("shares, places refused", 0x5A_0005);
    let mut refused = 0u64;
    let around = (7..usize::BITS).flat_map(|bit| {
        let power = 1usize << bit;
        (power - 1..=power).chain(power + 7..=power + 96)
    });
    let last = (0..1_000).map(|less| usize::MAX - less);
    for place in (0..TRIED).chain(around).chain(last) {
        let before = eight(&mut rng);
        let byte = rng.byte();
        let answer = shares::add(before, place, byte);
        refused += u64::from(answer.is_err());
        check(before, place, byte, answer);
    }
    println!("shares, places refused: {refused} refused with 14");
    assert_eq!(COMPARED.get() - refused, 88);
    report("shares, places refused and taken");
}
