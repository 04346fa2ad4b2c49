//! A receiver saved as words and loaded again (document 02, Asks 13 and 14).

use super::{Receiver, ReceiverState};
use crate::{ffi, Mode, Refusal, Stream, CARRY_BYTES};

impl Receiver {
    /// Saves the receiver as words of 32 bits, for a program that goes on
    /// later: writes them into `words`, from the first on, and answers how many
    /// there are. A buffer of [`SNAPSHOT_WORDS`](crate::SNAPSHOT_WORDS) words
    /// is long enough for every receiver; those after the ones written stay as
    /// they are.
    ///
    /// What the receiver that [`Receiver::load`] makes of these words logs from there
    /// on is what this one would have logged, whatever the calls are.
    ///
    /// Bits 31-28 of a word are its kind. Kinds rise from word to word, and only kinds 5
    /// and 6 repeat; bits that have no meaning here are zero:
    ///
    /// | kind | where | bits |
    /// |---|---|---|
    /// | 0 | always, first | 3-0 the mode, 5-4 the stream |
    /// | 1 | sequence known | 2-0 the last PDU's sequence |
    /// | 2 | bytes held | 21-16 the number of the packet that they begin, 15-0 how many |
    /// | 3 | always | 7-0 the value that the CRC's register starts with |
    /// | 4 | always | 7-0 the entitled programs, bit p for program p; 11 set if the applied services in force are known, 10-8 these, else zero |
    /// | 5 | bytes held | 25-24 how many of them stand in this word, three but in the last; the first in 23-16, then 15-8, then 7-0 |
    /// | 6 | packets delivered | 15-0, in five words: delivered, its high 16 bits and its low ones, missing likewise, and the last number |
    ///
    /// They have no check of their own: keep one with them where they can be damaged.
    ///
    /// # Errors
    ///
    /// [`Refusal::WordBuffer`]: `words` has fewer words than the receiver takes. It is
    /// then as it was.
    ///
    /// # Example
    ///
    /// ```
    /// use barzhilup::{Entry, Mode, Receiver, Settings, Stream, Writer, SNAPSHOT_WORDS};
    ///
    /// # fn main() -> Result<(), barzhilup::Refusal> {
    /// let mut writer = Writer::open(Mode::M0, Stream::Core)?;
    /// let mut receiver = Receiver::open(Mode::M0, Stream::Core)?;
    /// let mut pdu = [0; 96];
    /// writer.write(&Settings::default(), b"", &[[7; 100]], &mut pdu)?;
    /// receiver.receive(&mut pdu)?; // packet 0 begins
    ///
    /// let mut words = [0; SNAPSHOT_WORDS];
    /// let count = receiver.save(&mut words)?;
    /// drop(receiver); // the firmware changes
    ///
    /// let mut receiver = Receiver::load(&words[..count])?;
    /// writer.write(&Settings::default(), b"", &[[7; 100]], &mut pdu)?;
    /// let log = receiver.receive(&mut pdu)?; // and ends
    /// assert!(matches!(log.entries().next(), Some(Entry::Packet { number: 0, .. })));
    /// # Ok(())
    /// # }
    /// ```
    pub fn save(&self, words: &mut [u32]) -> Result<usize, Refusal> {
        let answer = ffi::snapshots::save(self.state.to_c(), &self.carry, words);
        Refusal::check(answer.refusal, 0)?;
        Ok(answer.words as usize)
    }

    /// Loads a receiver from the words that [`Receiver::save`] wrote, just
    /// these: it remembers and holds what the saved one did.
    ///
    /// Words of older firmware may lack kind 3, 4 or 6: then the register of the CRCs
    /// starts at 0, the receiver is entitled to no program and the applied services are
    /// unknown, or nothing is delivered so far.
    ///
    /// PDUs that passed between saving and loading are marked lost, one call of
    /// [`Receiver::mark_lost`] for each: their sequences may happen to fit, and then
    /// nothing else tells that they are missing.
    ///
    /// # Errors
    ///
    /// [`Refusal::Words`]: the words are not those of a receiver, or a field in them is
    /// outside its range.
    pub fn load(words: &[u32]) -> Result<Receiver, Refusal> {
        let mut carry = vec![0; CARRY_BYTES];
        let answer = ffi::snapshots::load(words, &mut carry);
        Refusal::check(answer.refusal, 0)?;
        let mode = Mode::try_from(answer.receiver.mode)?;
        let stream = Stream::try_from(answer.receiver.stream)?;
        let state = ReceiverState::after(mode, stream, answer.receiver);
        Ok(Receiver::new(state, carry))
    }
}
