//! Eight short PDUs in one call (document 02, Ask 1): PDUs joined in one buffer,
//! with a list of their lengths, received one call after another, with refusal
//! 18.

use crate::receiver::{self, Receiver};
use crate::refusal;

/// The answer to receiving a batch.
#[derive(Clone, Debug, PartialEq, Eq)]
pub struct Answer {
    /// 0 if all are taken; otherwise what the call of the first refused PDU
    /// answers, or the whole batch's number.
    pub refusal: u32,
    /// The k that comes with that number.
    pub k: usize,
    /// How many PDUs are taken.
    pub taken: usize,
    /// How many words of the log are written.
    pub words: usize,
    /// The receiver, as the last PDU taken left it.
    pub receiver: Receiver,
}

/// Whether the lengths sum to the buffer. They are added with room for any
/// sum.
fn sum_is(lengths: &[usize], bytes: usize) -> bool {
    lengths.iter().map(|&length| length as u128).sum::<u128>() == bytes as u128
}

/// What is wrong with a batch as a whole, before its first PDU is looked at: 1
/// or 2, and after these 18.
fn number(receiver: &Receiver, carry: usize, pdus: usize, lengths: &[usize]) -> Option<u32> {
    let call = [
        receiver::state_causes(receiver),
        receiver::carry_causes(carry),
    ];
    let first = refusal::first(call.iter().flatten().map(|cause| cause.number()));
    first.or_else(|| (!sum_is(lengths, pdus)).then_some(refusal::LENGTHS))
}

/// Receives PDUs that are joined in a lent buffer, one call after another, each
/// log following the last; it stops at the first refused one.
pub fn receive(
    receiver: Receiver,
    carry: &mut [u8],
    pdus: &mut [u8],
    lengths: &[usize],
    log: &mut [u32],
) -> Answer {
    let mut answer = Answer {
        refusal: 0,
        k: 0,
        taken: 0,
        words: 0,
        receiver,
    };
    if let Some(number) = number(&receiver, carry.len(), pdus.len(), lengths) {
        answer.refusal = number;
        return answer;
    }
    let mut rest = pdus;
    for &length in lengths {
        let (pdu, after) = rest.split_at_mut(length);
        let left = &mut log[answer.words..];
        let call = receiver::receive(answer.receiver, carry, pdu, left);
        if call.refusal != 0 {
            answer.refusal = call.refusal;
            answer.k = call.k();
            return answer;
        }
        answer.taken += 1;
        answer.words += call.words;
        answer.receiver = call.receiver;
        rest = after;
    }
    answer
}

#[cfg(test)]
mod tests {
    use super::*;
    use crate::control::ControlWord;
    use crate::encode::Parts;

    /// What the log holds before the call.
    const UNTOUCHED: u32 = 0xEEEE_EEEE;

    /// A PDU of mode 0, core, with no piece and one byte of PSD: two words.
    fn pdu(sequence: u8) -> Vec<u8> {
        let mut pdu = vec![0; 96];
        let parts = Parts {
            control: ControlWord {
                sequence,
                la: 14,
                ..ControlWord::default()
            },
            locator_bits: 16,
            psd: vec![9],
            ..Parts::default()
        };
        parts.encode(&mut pdu);
        pdu
    }

    /// Receives them with a carry and a log of these lengths; a log behind the
    /// words that are written stays as it was.
    fn received(
        receiver: Receiver,
        carry: usize,
        pdus: &[u8],
        lengths: &[usize],
        log: usize,
    ) -> (u32, usize, usize) {
        let mut lent = pdus.to_vec();
        let mut log = vec![UNTOUCHED; log];
        let answer = receive(receiver, &mut vec![0; carry], &mut lent, lengths, &mut log);
        assert!(log[answer.words..].iter().all(|&word| word == UNTOUCHED));
        assert_eq!(lent, pdus);
        if answer.taken == 0 {
            assert_eq!(answer.receiver, receiver);
        }
        (answer.refusal, answer.taken, answer.words)
    }

    #[test]
    fn sums() {
        let fresh = receiver::open(0, 0).unwrap();
        let two = [pdu(0), pdu(1)].concat();
        for (bytes, lengths, wanted) in [
            (&two[..], &[96, 96][..], (0, 2, 4)),
            (&[], &[], (0, 0, 0)),
            (&[], &[0], (3, 0, 0)),
            (&[0], &[], (18, 0, 0)),
            (&two, &[95, 96], (18, 0, 0)),
            (&two, &[95, 97], (3, 0, 0)),
            (&two, &[96, 95, 1], (3, 1, 2)),
            (&two, &[96, 96, 0], (3, 2, 4)),
            (&two, &[usize::MAX, 193], (18, 0, 0)),
        ] {
            let answer = received(fresh, 4_096, bytes, lengths, 100);
            assert_eq!(answer, wanted, "{lengths:?}");
        }
    }

    #[test]
    fn order() {
        let fresh = receiver::open(0, 0).unwrap();
        let wrong = Receiver { number: 1, ..fresh };
        for (lengths, sum_number) in [(&[96][..], 0), (&[97], 18), (&[], 18)] {
            for carry in [4_095, 4_096] {
                let answer = received(wrong, carry, &pdu(0), lengths, 100);
                assert_eq!(answer, (1, 0, 0));
            }
            assert_eq!(received(fresh, 4_095, &pdu(0), lengths, 100), (2, 0, 0));
            let (refusal, ..) = received(fresh, 4_096, &pdu(0), lengths, 100);
            assert_eq!(refusal, sum_number);
        }
        assert_eq!(received(wrong, 0, &[], &[], 0), (1, 0, 0));
        assert_eq!(received(fresh, 0, &[], &[], 0), (2, 0, 0));
    }

    /// 13 is judged on what is left of the log.
    #[test]
    fn logs() {
        let fresh = receiver::open(0, 0).unwrap();
        let three = [pdu(0), pdu(1), pdu(0)].concat();
        for (log, wanted) in [
            (0, (13, 0, 0)),
            (1, (13, 0, 0)),
            (2, (13, 1, 2)),
            (3, (13, 1, 2)),
            (5, (13, 2, 4)),
            (6, (0, 3, 6)),
        ] {
            assert_eq!(received(fresh, 4_096, &three, &[96; 3], log), wanted);
        }
    }
}
