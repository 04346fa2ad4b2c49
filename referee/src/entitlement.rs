//! Paid programs (document 02, Ask 10): the list of entitled program numbers with
//! refusal 22, the applied services in force, and which PDUs are withheld.

use crate::modes::{Line, CORE};
use crate::refusal;

/// The program numbers are 0 to 7.
pub const PROGRAMS: usize = 8;

/// Applied services have three bits.
pub const MOST_SERVICES: u8 = 7;

/// Of each program number, whether it is listed.
pub type Entitled = [bool; PROGRAMS];

/// All of them are.
pub const ALL: Entitled = [true; PROGRAMS];

/// The programs of this list; or 22, where one is over 7 or repeated.
pub fn entitled(programs: &[u8]) -> Result<Entitled, u32> {
    let mut entitled = [false; PROGRAMS];
    for &program in programs {
        match entitled.get_mut(usize::from(program)) {
            Some(listed) if !*listed => *listed = true,
            _ => return Err(refusal::PROGRAMS),
        }
    }
    Ok(entitled)
}

/// Whether PDUs of this line take the value that is sent with sequence 0: core
/// PDUs of sequence range 0-7.
pub fn keeps(line: &Line) -> bool {
    line.stream == CORE && line.sequences == 8
}

/// The value that is kept once a PDU has come with this sequence and these
/// applied services, 0 if they are not sent: its own with sequence 0, else the one
/// before, none while it is unknown.
pub fn kept(line: &Line, before: Option<u8>, sequence: u8, sent: u8) -> Option<u8> {
    match sequence {
        _ if !keeps(line) => None,
        0 => Some(sent),
        _ => before,
    }
}

/// Whether a PDU of a program not listed is withheld: by the value that is kept
/// with it or, where none is kept, by its own. While it is unknown, it is.
pub fn withheld(line: &Line, kept: Option<u8>, sent: u8) -> bool {
    let in_force = match keeps(line) {
        true => kept,
        false => Some(sent),
    };
    in_force.is_none_or(|services| services == 1)
}

#[cfg(test)]
mod tests {
    use super::*;
    use crate::modes::TABLE;

    #[test]
    fn lists() {
        assert_eq!(entitled(&[]), Ok([false; 8]));
        assert_eq!(entitled(&[7, 0, 1, 2, 3, 4, 5, 6]), Ok(ALL));
        let mut some = [false; 8];
        (some[3], some[5]) = (true, true);
        assert_eq!(entitled(&[5, 3]), Ok(some));
        let wrong: [&[u8]; 6] = [
            &[8],
            &[255],
            &[0, 0],
            &[7, 1, 7],
            &[0, 1, 2, 3, 4, 5, 6, 7, 0],
            &[0, 1, 2, 3, 4, 5, 6, 7, 8],
        ];
        for programs in wrong {
            assert_eq!(entitled(programs), Err(22), "{programs:?}");
        }
    }

    #[test]
    fn lines_that_keep() {
        let keeping = TABLE.iter().filter(|line| keeps(line));
        let lines: Vec<(u8, u8)> = keeping.map(|line| (line.mode, line.stream)).collect();
        assert_eq!(lines, [(1, 0), (2, 0), (3, 0), (13, 0)]);
    }

    #[test]
    fn values() {
        for line in TABLE {
            for before in [None, Some(0), Some(1), Some(6)] {
                for sequence in 0..line.sequences {
                    for sent in 0..=7 {
                        let kept = kept(&line, before, sequence, sent);
                        let withheld = withheld(&line, kept, sent);
                        if !keeps(&line) {
                            assert_eq!((kept, withheld), (None, sent == 1));
                        } else if sequence == 0 {
                            assert_eq!((kept, withheld), (Some(sent), sent == 1));
                        } else {
                            let wanted = before == None || before == Some(1);
                            assert_eq!((kept, withheld), (before, wanted));
                        }
                    }
                }
            }
        }
    }
}
