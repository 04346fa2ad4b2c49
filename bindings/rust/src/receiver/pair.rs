//! A pair of PDUs received in one call (document 02, Ask 5).

use super::Receiver;
use crate::{ffi, Log, Refusal};

impl Receiver {
    /// Receives a pair of PDUs, two copies of one from two receivers on one
    /// signal, and hands out the log of this call: that of one PDU.
    ///
    /// Each piece is taken from a copy in which its CRC is right. Where it is right
    /// in both and the bytes differ, the note is
    /// [`Cause::CopiesDiffer`](crate::Cause::CopiesDiffer); where it is wrong in
    /// both, it is [`Cause::Crc`](crate::Cause::Crc), even where the bytes are equal.
    /// Where only one copy can be corrected, or has a length of PDUs, that one is
    /// received as [`Receiver::receive`] receives it, and the other keeps its bytes.
    /// Each header that can be corrected is left corrected.
    ///
    /// # Errors
    ///
    /// The first of these that applies:
    ///
    /// - [`Refusal::Uncorrectable`]: neither copy can be corrected.
    /// - One from [`Refusal::Mode`] to [`Refusal::Displacement`], numbers 5 to 12: the
    ///   lowest that applies to a copy that can be corrected, however good the other
    ///   is; [`Refusal::Locator`] with the smallest k over both.
    /// - [`Refusal::Pair`]: both can be corrected, and lengths or corrected bytes 8 to
    ///   La differ. They are not of one PDU, or bytes 96 to La of one are damaged.
    /// - [`Refusal::CountLimit`]: a count of packets would pass 4,294,967,295.
    ///
    /// Then the receiver and both PDUs are as they were, and a copy can still be
    /// received alone.
    ///
    /// # Example
    ///
    /// ```
    /// use barzhilup::{Entry, Mode, Receiver, Settings, Stream, Writer};
    ///
    /// # fn main() -> Result<(), barzhilup::Refusal> {
    /// let mut writer = Writer::open(Mode::M0, Stream::Core)?;
    /// let mut receiver = Receiver::open(Mode::M0, Stream::Core)?;
    /// let mut first = [0; 300];
    /// let packets = [[1; 100], [2; 100]];
    /// writer.write(&Settings::default(), b"", &packets, &mut first)?;
    /// let mut second = first;
    /// first[110] ^= 0x10; // noise in the first packet at one antenna,
    /// second[200] ^= 0x01; // in the second packet at the other
    /// second[9] ^= 0xFF; // and in its header
    ///
    /// let log = receiver.receive_pair(&mut first, &mut second)?;
    /// let whole = |entry| matches!(entry, Entry::Packet { .. });
    /// assert_eq!(log.entries().filter(|&entry| whole(entry)).count(), 2);
    /// # Ok(())
    /// # }
    /// ```
    pub fn receive_pair(
        &mut self,
        first: &mut [u8],
        second: &mut [u8],
    ) -> Result<Log<'_>, Refusal> {
        let state = self.state.to_c();
        let answer = ffi::pairs::receive(state, &mut self.carry, first, second, &mut self.log);
        self.step(answer)
    }
}
