//! Parity as bytes arrive (document 02, Ask 8): headers filled in any order.

use barzhilup::{add_parity_share, parity, Refusal};

mod common;
use common::Random;

/// The places 8 to 95 in a random order.
fn shuffled(random: &mut Random) -> Vec<usize> {
    let mut places: Vec<usize> = (8..96).collect();
    for last in (1..places.len()).rev() {
        places.swap(last, random.below(last + 1));
    }
    places
}

#[test]
fn any_order() {
    let mut random = Random::new(0x5A8E);
    for _ in 0..500 {
        let header: [u8; 96] = random.bytes(96).try_into().unwrap();
        let mut sum = [0; 8];
        for place in shuffled(&mut random) {
            sum = add_parity_share(sum, place, header[place]).unwrap();
        }
        assert_eq!(sum, parity(&header));
    }
}

#[test]
fn a_byte_that_changes() {
    let mut random = Random::new(0x5A8F);
    for place in 8..96 {
        let mut header: [u8; 96] = random.bytes(96).try_into().unwrap();
        let byte = random.below(256) as u8;
        let sum = add_parity_share(parity(&header), place, header[place] ^ byte);
        header[place] = byte;
        assert_eq!(sum, Ok(parity(&header)));
    }
}

#[test]
fn n14_places() {
    let wide = [256 + 8, 65_536 + 8, usize::MAX - 88, usize::MAX];
    for place in (0..8).chain(96..1_000).chain(wide) {
        assert_eq!(add_parity_share([7; 8], place, 1), Err(Refusal::Value));
    }
    assert_eq!(Refusal::Value.number(), 14);
}
