//! Modes and streams (document 01, "Modes"; 001, tables 5-1, 5-2 and 5-9).

use crate::Refusal;
use std::fmt;

/// An audio codec mode.
///
/// Together with the [`Stream`] it decides the width of the locators, the range
/// of the PDU sequence, and how many bytes of PSD and expansion together a writer
/// may put into a PDU:
///
/// | mode, stream | locator bits | PDU sequence | PSD plus expansion |
/// |---|---|---|---|
/// | 0, core | 16 | 0 to 1 | 128 |
/// | 1, 2, 3, core | 12 | 0 to 7 | 21 |
/// | 1, 2, 3, enhanced | 16 | 0 to 1 | 16, no PSD |
/// | 10, core | 12 | 0 to 1 | 128 |
/// | 10, enhanced | 12 | 0 to 7 | 16, no PSD |
/// | 13, core | 12 | 0 to 7 | 21 |
///
/// A mode and stream that the table has not are refused with [`Refusal::Mode`].
/// The standard leaves room for other modes, so this enum may grow.
///
/// # Example
///
/// ```
/// use barzhilup::{Mode, Refusal};
///
/// assert_eq!(Mode::try_from(10), Ok(Mode::M10));
/// assert_eq!(Mode::M10.number(), 10);
/// assert_eq!(Mode::try_from(4), Err(Refusal::Mode));
/// ```
#[derive(Clone, Copy, Debug, PartialEq, Eq, PartialOrd, Ord, Hash)]
#[non_exhaustive]
pub enum Mode {
    /// Mode 0: core only.
    M0,
    /// Mode 1: core and enhanced.
    M1,
    /// Mode 2: core and enhanced.
    M2,
    /// Mode 3: core and enhanced.
    M3,
    /// Mode 10: core and enhanced.
    M10,
    /// Mode 13: core only.
    M13,
}

impl Mode {
    /// The mode's number, as the control word has it.
    #[must_use]
    pub const fn number(self) -> u8 {
        match self {
            Mode::M0 => 0,
            Mode::M1 => 1,
            Mode::M2 => 2,
            Mode::M3 => 3,
            Mode::M10 => 10,
            Mode::M13 => 13,
        }
    }
}

impl TryFrom<u8> for Mode {
    type Error = Refusal;

    /// The mode with this number; refused with [`Refusal::Mode`] if there is none.
    fn try_from(number: u8) -> Result<Mode, Refusal> {
        match number {
            0 => Ok(Mode::M0),
            1 => Ok(Mode::M1),
            2 => Ok(Mode::M2),
            3 => Ok(Mode::M3),
            10 => Ok(Mode::M10),
            13 => Ok(Mode::M13),
            _ => Err(Refusal::Mode),
        }
    }
}

impl fmt::Display for Mode {
    fn fmt(&self, f: &mut fmt::Formatter<'_>) -> fmt::Result {
        write!(f, "mode {}", self.number())
    }
}

/// One of the two streams of a mode. There are no others.
#[derive(Clone, Copy, Debug, PartialEq, Eq, PartialOrd, Ord, Hash)]
pub enum Stream {
    /// Stream 0, core.
    Core,
    /// Stream 1, enhanced. Modes 0 and 13 have none.
    Enhanced,
}

impl Stream {
    /// The stream's number, as the control word has it.
    #[must_use]
    pub const fn number(self) -> u8 {
        match self {
            Stream::Core => 0,
            Stream::Enhanced => 1,
        }
    }
}

impl TryFrom<u8> for Stream {
    type Error = Refusal;

    /// The stream with this number; refused with [`Refusal::Mode`] if there is
    /// none.
    fn try_from(number: u8) -> Result<Stream, Refusal> {
        match number {
            0 => Ok(Stream::Core),
            1 => Ok(Stream::Enhanced),
            _ => Err(Refusal::Mode),
        }
    }
}

impl fmt::Display for Stream {
    fn fmt(&self, f: &mut fmt::Formatter<'_>) -> fmt::Result {
        f.write_str(match self {
            Stream::Core => "core",
            Stream::Enhanced => "enhanced",
        })
    }
}
