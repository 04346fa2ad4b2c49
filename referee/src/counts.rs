//! The loss column (document 02, Ask 14): how many packets are delivered and how many
//! are missing between them, and the last delivered number, with what refusals 1 and 27
//! say of them.

use crate::log::Entry;
use crate::receiver::Receiver;
use crate::refusal::ReceiverCause;
use crate::writer::NUMBERS;

/// The most that a count can be.
pub const MOST: u64 = 4_294_967_295;

/// The two counts, with room for more than they can be, and the last delivered number,
/// if one was delivered.
#[derive(Clone, Copy, Debug, PartialEq, Eq)]
pub(crate) struct Counts {
    delivered: u64,
    missing: u64,
    last: Option<u8>,
}

impl Counts {
    /// Those of a receiver that number 1 does not turn down.
    pub(crate) fn of(receiver: &Receiver) -> Counts {
        Counts {
            delivered: receiver.delivered.into(),
            missing: receiver.missing.into(),
            last: (receiver.delivered > 0).then_some(receiver.last),
        }
    }

    /// After what is logged, of which the packets are delivered. After the first
    /// delivery, each adds its number minus the last minus 1, modulo 64, to missing.
    pub(crate) fn after(mut self, entries: &[Entry]) -> Counts {
        for entry in entries {
            let Entry::Packet(number, _) = entry else {
                continue;
            };
            if let Some(last) = self.last {
                let between = i32::from(*number) - i32::from(last) - 1;
                let between = between.rem_euclid(NUMBERS.into());
                self.missing += u64::from(between.unsigned_abs());
            }
            self.delivered += 1;
            self.last = Some(*number);
        }
        self
    }

    /// Refusal 27: a count would pass the most that it can be.
    pub(crate) fn causes(&self) -> Vec<ReceiverCause> {
        let mut causes = Vec::new();
        if self.delivered > MOST {
            causes.push(ReceiverCause::DeliveredPasses);
        }
        if self.missing > MOST {
            causes.push(ReceiverCause::MissingPasses);
        }
        causes
    }

    /// The receiver with these counts.
    pub(crate) fn put(&self, receiver: Receiver) -> Receiver {
        Receiver {
            delivered: u32::try_from(self.delivered).expect("a count"),
            missing: u32::try_from(self.missing).expect("a count"),
            last: self.last.unwrap_or(0),
            ..receiver
        }
    }
}

/// Refusal 1: with delivered 0 the other two are 0, and the last number is at most 63.
pub(crate) fn state_causes(receiver: &Receiver) -> Vec<ReceiverCause> {
    let mut causes = Vec::new();
    if receiver.last >= NUMBERS {
        causes.push(ReceiverCause::Last);
    }
    if receiver.delivered == 0 && receiver.missing != 0 {
        causes.push(ReceiverCause::MissingOfNone);
    }
    if receiver.delivered == 0 && receiver.last != 0 {
        causes.push(ReceiverCause::LastOfNone);
    }
    causes
}

#[cfg(test)]
mod tests {
    use super::*;
    use crate::log::Note;

    fn counts(delivered: u64, missing: u64, last: Option<u8>) -> Counts {
        Counts {
            delivered,
            missing,
            last,
        }
    }

    fn packets(numbers: &[u8]) -> Vec<Entry> {
        let packet = |&number: &u8| Entry::Packet(number, vec![1]);
        numbers.iter().map(packet).collect()
    }

    #[test]
    fn numbers() {
        let none = counts(0, 0, None);
        assert_eq!(none.after(&[]), none);
        assert_eq!(none.after(&packets(&[40])), counts(1, 0, Some(40)));
        for (numbers, missing) in [
            (&[5, 6, 7][..], 0),
            (&[5, 7], 1),
            (&[5, 5], 63),
            (&[5, 4], 62),
            (&[63, 0], 0),
            (&[62, 0, 3], 3),
            (&[0, 63], 62),
            (&[0, 0, 0], 126),
        ] {
            let last = numbers.last().copied();
            let wanted = counts(numbers.len() as u64, missing, last);
            assert_eq!(none.after(&packets(numbers)), wanted, "{numbers:?}");
        }
        let others = [
            Entry::Psd(vec![9]),
            Entry::Note(Note::Lost),
            Entry::Note(Note::WrongCrc(3)),
        ];
        assert_eq!(none.after(&others), none);
    }

    #[test]
    fn limits() {
        let full = counts(MOST, MOST, Some(7));
        assert_eq!(full.causes(), []);
        assert_eq!(
            full.after(&packets(&[8])).causes(),
            [ReceiverCause::DeliveredPasses]
        );
        let missing = counts(1, MOST, Some(7));
        assert_eq!(missing.after(&packets(&[8])).causes(), []);
        assert_eq!(
            missing.after(&packets(&[9])).causes(),
            [ReceiverCause::MissingPasses]
        );
        assert_eq!(full.after(&packets(&[7])).causes().len(), 2);
    }
}
