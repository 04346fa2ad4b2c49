//! PDUs received in one call (document 02, Ask 1).

use super::{Receiver, ReceiverState};
use crate::{ffi, Log, Refusal, LOG_WORDS};

/// What came of receiving a batch of PDUs.
#[derive(Clone, Copy, Debug, PartialEq, Eq)]
#[must_use = "a batch may have stopped at a PDU that was refused"]
pub struct Batch<'a> {
    /// How many PDUs were received, from the first on: all of them, or those
    /// before the first one that was refused.
    pub taken: usize,
    /// Their logs, one after another.
    pub log: Log<'a>,
    /// Why the PDU after them was refused, if one was, as [`Receiver::receive`]
    /// refuses it. It and those after it are as they were.
    pub refusal: Option<Refusal>,
}

impl Receiver {
    /// Receives PDUs that stand joined in one buffer, as [`Receiver::receive`]
    /// would one after another, and hands out their logs, one following the
    /// other.
    ///
    /// `lengths` has the PDUs' lengths, in their order. Any count will do, also
    /// none. It stops at the first PDU that is refused, and the answer says how
    /// many were received before it: to go on, mark it lost and hand over those
    /// after it.
    ///
    /// # Errors
    ///
    /// [`Refusal::Lengths`]: the lengths do not sum to the buffer. It is judged
    /// before the first PDU, and then the receiver and all PDUs are as they were.
    ///
    /// # Example
    ///
    /// ```
    /// use barzhilup::{Mode, Receiver, Refusal, Settings, Stream, Writer};
    ///
    /// # fn main() -> Result<(), barzhilup::Refusal> {
    /// let mut writer = Writer::open(Mode::M0, Stream::Core)?;
    /// let mut receiver = Receiver::open(Mode::M0, Stream::Core)?;
    /// let (first, second) = ([1; 100], [2; 50]);
    /// let mut frame = vec![0; 96 + 120];
    /// writer.write(&Settings::default(), b"", &[&first[..], &second], &mut frame[..96])?;
    /// writer.write(&Settings::default(), b"", &[&first[..], &second], &mut frame[96..])?;
    ///
    /// let batch = receiver.receive_batch(&mut frame, &[96, 120])?;
    /// assert_eq!((batch.taken, batch.refusal), (2, None));
    /// assert_eq!(batch.log.entries().count(), 2); // both packets
    ///
    /// let refused = receiver.receive_batch(&mut frame, &[96, 119]);
    /// assert_eq!(refused, Err(Refusal::Lengths));
    /// # Ok(())
    /// # }
    /// ```
    pub fn receive_batch(
        &mut self,
        pdus: &mut [u8],
        lengths: &[usize],
    ) -> Result<Batch<'_>, Refusal> {
        let (mut place, mut taken, mut words) = (0, 0, 0);
        let refusal = loop {
            self.make_room(words);
            let answer = ffi::batches::receive(
                self.state.to_c(),
                &mut self.carry,
                &mut pdus[place..],
                &lengths[taken..],
                &mut self.log[words..],
            );
            self.state = ReceiverState::after(self.state.mode, self.state.stream, answer.receiver);
            place += lengths[taken..taken + answer.taken].iter().sum::<usize>();
            taken += answer.taken;
            words += answer.words;
            match Refusal::check(answer.refusal, answer.wrong_locator) {
                Ok(()) => break None,
                Err(Refusal::Lengths) => return Err(Refusal::Lengths),
                // The log is full: on with the rest, in a longer one.
                Err(Refusal::LogLength) => {}
                Err(refusal) => break Some(refusal),
            }
        };
        Ok(Batch {
            taken,
            log: Log::written(&self.log[..words]),
            refusal,
        })
    }

    /// Makes the log long enough for a PDU after so many words.
    fn make_room(&mut self, words: usize) {
        if self.log.len() - words < LOG_WORDS {
            self.log.resize(2 * words + LOG_WORDS, 0);
        }
    }
}
