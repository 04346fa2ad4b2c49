//! The modes and streams there are, and what they decide (document 01,
//! "Modes").

/// The core stream.
pub const CORE: u8 = 0;

/// The enhanced stream.
pub const ENHANCED: u8 = 1;

/// What a mode and stream decide.
#[derive(Clone, Copy, Debug, PartialEq, Eq)]
pub struct Line {
    pub mode: u8,
    pub stream: u8,
    /// How many bits a locator has.
    pub locator_bits: usize,
    /// How many PDU sequences there are; they begin at 0.
    pub sequences: u8,
    /// How many bytes PSD and expansion may have together; for the writer.
    pub psd_and_expansion: usize,
    /// Whether there may be PSD at all; for the writer.
    pub psd: bool,
}

/// A line of the table; the last two are the last column's.
const fn line(
    (mode, stream): (u8, u8),
    locator_bits: usize,
    sequences: u8,
    psd_and_expansion: usize,
    psd: bool,
) -> Line {
    Line {
        mode,
        stream,
        locator_bits,
        sequences,
        psd_and_expansion,
        psd,
    }
}

/// The table of modes, a line for each mode and stream.
pub const TABLE: [Line; 10] = [
    line((0, CORE), 16, 2, 128, true),
    line((1, CORE), 12, 8, 21, true),
    line((2, CORE), 12, 8, 21, true),
    line((3, CORE), 12, 8, 21, true),
    line((1, ENHANCED), 16, 2, 16, false),
    line((2, ENHANCED), 16, 2, 16, false),
    line((3, ENHANCED), 16, 2, 16, false),
    line((10, CORE), 12, 2, 128, true),
    line((10, ENHANCED), 12, 8, 16, false),
    line((13, CORE), 12, 8, 21, true),
];

/// The line for a mode and stream, if they are in the table.
pub fn line_for(mode: u8, stream: u8) -> Option<Line> {
    TABLE
        .into_iter()
        .find(|line| line.mode == mode && line.stream == stream)
}

#[cfg(test)]
mod tests {
    use super::*;

    #[test]
    fn ten_of_sixty_four() {
        let mut found = Vec::new();
        for mode in 0..16 {
            for stream in 0..4 {
                if let Some(line) = line_for(mode, stream) {
                    assert_eq!((line.mode, line.stream), (mode, stream));
                    found.push((mode, stream, line.locator_bits, line.sequences));
                }
            }
        }
        let wanted = [
            (0, 0, 16, 2),
            (1, 0, 12, 8),
            (1, 1, 16, 2),
            (2, 0, 12, 8),
            (2, 1, 16, 2),
            (3, 0, 12, 8),
            (3, 1, 16, 2),
            (10, 0, 12, 2),
            (10, 1, 12, 8),
            (13, 0, 12, 8),
        ];
        assert_eq!(found, wanted);
    }
}
