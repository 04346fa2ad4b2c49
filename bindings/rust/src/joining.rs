//! Core and enhanced side by side (document 02, Ask 11).

use crate::ffi::joining as ffi;
use crate::log::Data;
use crate::Refusal;
use std::iter::FusedIterator;

/// Set in the first word of an enhanced packet in the words of [`Joined`], and
/// in no packet's first word of a log.
pub const JOINED_ENHANCED: u32 = 0x2000_0000;

/// Joins two logs of one frame, core and enhanced, by packet number.
///
/// Each is the words of one call's log, or of several calls' joined. In the
/// core's order the result has each core packet, alone or with the enhanced packet
/// of the same number. An enhanced packet without core is dropped; PSD and notes
/// are left off. With no core packet the result is empty.
///
/// # Errors
///
/// The first of these that applies:
///
/// - [`Refusal::LogWords`]: the words are no log, as [`Log`](crate::Log) says; those
///   of a receiver are. The result of a join with a pair is no log, one without a
///   pair is.
/// - [`Refusal::Numbers`]: packet numbers do not rise strictly within a log, counted
///   from its own first packet, modulo 64. Not looked at if there is no core packet.
///
/// # Example
///
/// ```
/// use barzhilup::join;
///
/// let core = [0x003F_0001, 0x4111_0000, 0x0000_0001, 0x4122_0000]; // packets 63 and 0
/// let enhanced = [0x0000_0001, 0x4133_0000]; // packet 0
/// let joined = join(&core, &enhanced)?;
/// let mut numbers = Vec::new();
/// for packet in &joined {
///     numbers.push((packet.number, packet.enhanced.is_some()));
/// }
/// assert_eq!(numbers, [(63, false), (0, true)]);
/// # Ok::<(), barzhilup::Refusal>(())
/// ```
pub fn join(core: &[u32], enhanced: &[u32]) -> Result<Joined, Refusal> {
    // Each packet of either log stands in the result once at most.
    let mut words = vec![0; core.len() + enhanced.len()];
    let answer = ffi::join(core, enhanced, &mut words);
    Refusal::check(answer.refusal, 0)?;
    words.truncate(answer.words);
    Ok(Joined { words })
}

/// Two logs joined.
#[derive(Clone, Debug, PartialEq, Eq)]
#[must_use = "the packets stand in this answer alone"]
pub struct Joined {
    words: Vec<u32>,
}

impl Joined {
    /// The words: each core packet's, and for a pair the enhanced packet's after
    /// them, with [`JOINED_ENHANCED`] set in its first.
    #[must_use]
    pub fn words(&self) -> &[u32] {
        &self.words
    }

    /// The packets, in the core's order.
    pub fn packets(&self) -> JoinedPackets<'_> {
        JoinedPackets { words: &self.words }
    }
}

impl<'a> IntoIterator for &'a Joined {
    type Item = JoinedPacket<'a>;
    type IntoIter = JoinedPackets<'a>;

    fn into_iter(self) -> JoinedPackets<'a> {
        self.packets()
    }
}

/// A core packet, and the enhanced one of its number if there is one.
#[derive(Clone, Copy, Debug, PartialEq, Eq)]
pub struct JoinedPacket<'a> {
    /// Its number, 0 to 63.
    pub number: u8,
    /// The bytes of the core packet.
    pub core: Data<'a>,
    /// The bytes of the enhanced packet.
    pub enhanced: Option<Data<'a>>,
}

/// The packets of [`Joined`], one after another.
#[derive(Clone, Debug)]
#[must_use = "packets are read only when they are asked for"]
pub struct JoinedPackets<'a> {
    words: &'a [u32],
}

impl<'a> JoinedPackets<'a> {
    /// The bytes of the packet that the words begin with, and its first word.
    fn take(&mut self) -> Option<(u32, Data<'a>)> {
        let (&first, rest) = self.words.split_first()?;
        let (data, rest) = Data::split(rest, (first & 0xFFFF) as usize)?;
        self.words = rest;
        Some((first, data))
    }
}

impl<'a> Iterator for JoinedPackets<'a> {
    type Item = JoinedPacket<'a>;

    fn next(&mut self) -> Option<JoinedPacket<'a>> {
        let (first, core) = self.take()?;
        let paired = self
            .words
            .first()
            .is_some_and(|&word| word & JOINED_ENHANCED != 0);
        let enhanced = if paired { self.take() } else { None };
        Some(JoinedPacket {
            number: (first >> 16 & 63) as u8,
            core,
            enhanced: enhanced.map(|(_, data)| data),
        })
    }
}

impl FusedIterator for JoinedPackets<'_> {}
