//! What a caller asks a PDU to say besides PSD and packets, and the writer's
//! rules for it (document 01, "Expansion, PSD, pieces" and the rows 10 and 14
//! of "What is turned down").

use crate::encode::{self, Field};
use crate::modes::CORE;
use crate::refusal::{Value, WriterCause};

/// The longest PDU whose last byte a displacement can tell.
pub const FARTHEST_LENGTH: usize = 16_384;

/// What is asked for. None means that the field isn't asked for.
#[derive(Clone, Copy, Debug, Default, PartialEq, Eq)]
pub struct Settings {
    pub blend: u8,
    /// Gain (core) or stream delay (enhanced).
    pub gain: u8,
    pub common_delay: u8,
    pub latency: u8,
    pub class_code: Option<u8>,
    /// The program number; asked for alone, it sends ID 1 alone.
    pub program: Option<u8>,
    /// Whether the displacement is wanted.
    pub displaced: bool,
    pub program_type: Option<ProgramType>,
    pub applied: Option<Applied>,
}

/// The field with ID 2.
#[derive(Clone, Copy, Debug, PartialEq, Eq)]
pub struct ProgramType {
    pub access: u8,
    pub code: u8,
}

/// The field with ID 4.
#[derive(Clone, Copy, Debug, PartialEq, Eq)]
pub struct Applied {
    pub services: u8,
    pub marker: u32,
}

impl Settings {
    /// Whether any field of the expansion is asked for.
    pub fn asks_for_expansion(&self) -> bool {
        self.class_code.is_some()
            || self.program.is_some()
            || self.displaced
            || self.program_type.is_some()
            || self.applied.is_some()
    }

    /// The program number. Without ID 1 it is 0, and so it is where ID 1 is
    /// sent only because another field is.
    pub fn program_number(&self) -> u8 {
        self.program.unwrap_or(0)
    }

    /// The access, if it is sent.
    fn access(&self) -> Option<u8> {
        self.program_type.map(|field| field.access)
    }

    /// The applied services, if they are sent.
    fn services(&self) -> Option<u8> {
        self.applied.map(|field| field.services)
    }

    /// The fields that are sent, their IDs rising. ID 1 is sent whenever any
    /// is; a wanted displacement is the place of the PDU's last byte.
    pub fn fields(&self, last_byte: usize) -> Vec<Field> {
        let mut fields = Vec::new();
        if let Some(class) = self.class_code {
            fields.push(Field::Class(class));
        }
        if self.displaced {
            let program = self.program_number();
            fields.push(Field::ProgramAndDisplacement(program, last_byte));
        } else if self.asks_for_expansion() {
            fields.push(Field::Program(self.program_number()));
        }
        if let Some(ProgramType { access, code }) = self.program_type {
            fields.push(Field::Type {
                access,
                unused: 0,
                code,
            });
        }
        if let Some(Applied { services, marker }) = self.applied {
            fields.push(Field::Marker { services, marker });
        }
        fields
    }

    /// The expansion bytes of a PDU with this last byte; none if no field is
    /// asked for.
    pub fn expansion(&self, last_byte: usize) -> Vec<u8> {
        encode::expansion(&self.fields(last_byte))
    }

    /// How many expansion bytes there are. What they say makes no difference.
    pub fn expansion_size(&self) -> usize {
        self.expansion(0).len()
    }

    /// Refusal 10, the writer's rules: class only 1, with nonzero program
    /// number and access 1; applied services 0 or 1, the latter only with
    /// class 1; access 1 only with class 1; no displacement for a length over
    /// 16,384.
    pub fn rule_causes(&self, length: usize) -> Vec<WriterCause> {
        let mut causes = Vec::new();
        if let Some(class) = self.class_code {
            if class != 1 {
                causes.push(WriterCause::ClassNot1);
            }
            if self.program_number() == 0 {
                causes.push(WriterCause::ClassWithoutProgram);
            }
            if self.access() != Some(1) {
                causes.push(WriterCause::ClassWithoutAccess);
            }
        }
        if self.class_code != Some(1) {
            if self.access() == Some(1) {
                causes.push(WriterCause::AccessWithoutClass);
            }
            if self.services() == Some(1) {
                causes.push(WriterCause::ServicesWithoutClass);
            }
        }
        if let Some(services) = self.services() {
            if services > 1 {
                causes.push(WriterCause::ServicesOver1);
            }
        }
        if self.displaced && length > FARTHEST_LENGTH {
            causes.push(WriterCause::DisplacementTooFar);
        }
        causes
    }

    /// Refusal 14: blend 3, or nonzero with a nonzero program; core gain 7 to
    /// 23; a value past its width, of those that are sent.
    pub fn value_causes(&self, stream: u8) -> Vec<WriterCause> {
        let mut causes = Vec::new();
        if self.blend == 3 {
            causes.push(WriterCause::Blend3);
        }
        if self.blend != 0 && self.program_number() != 0 {
            causes.push(WriterCause::BlendWithProgram);
        }
        if stream == CORE && (7..=23).contains(&self.gain) {
            causes.push(WriterCause::CoreGain7To23);
        }
        for (value, number, bits) in self.values() {
            if number >= 1 << bits {
                causes.push(WriterCause::PastWidth(value));
            }
        }
        causes
    }

    /// The values that are sent, each with the bits it has.
    fn values(&self) -> Vec<(Value, u32, u32)> {
        let mut values = vec![
            (Value::Blend, u32::from(self.blend), 2),
            (Value::Gain, u32::from(self.gain), 5),
            (Value::CommonDelay, u32::from(self.common_delay), 6),
            (Value::Latency, u32::from(self.latency), 3),
        ];
        if let Some(class) = self.class_code {
            values.push((Value::Class, u32::from(class), 4));
        }
        if let Some(program) = self.program {
            values.push((Value::Program, u32::from(program), 3));
        }
        if let Some(ProgramType { access, code }) = self.program_type {
            values.push((Value::Access, u32::from(access), 1));
            values.push((Value::Type, u32::from(code), 8));
        }
        if let Some(Applied { services, marker }) = self.applied {
            values.push((Value::Services, u32::from(services), 3));
            values.push((Value::Marker, marker, 21));
        }
        values
    }
}

#[cfg(test)]
mod tests {
    use super::*;
    use WriterCause::*;

    fn with_type(access: u8, code: u8) -> Settings {
        Settings {
            program_type: Some(ProgramType { access, code }),
            ..Settings::default()
        }
    }

    fn with_services(services: u8, marker: u32) -> Settings {
        Settings {
            applied: Some(Applied { services, marker }),
            ..Settings::default()
        }
    }

    /// Class 1 with all that it needs.
    fn with_class_1() -> Settings {
        Settings {
            class_code: Some(1),
            program: Some(5),
            ..with_type(1, 0x85)
        }
    }

    #[test]
    fn id_1_whenever_any() {
        let nothing = Settings::default();
        assert_eq!(nothing.expansion(95), []);
        let program = Settings {
            program: Some(0),
            ..nothing
        };
        assert_eq!(program.expansion(95), [0x10]);
        assert_eq!(with_type(0, 5).expansion(95), [0x90, 0xA0, 0x05]);
        assert_eq!(
            with_services(0, 3).expansion(95),
            [0x90, 0xC8, 0x80, 0x80, 0x03]
        );
        let displaced = Settings {
            displaced: true,
            ..nothing
        };
        assert_eq!(displaced.expansion(95), [0x91, 0x80, 0x5F]);
        assert_eq!(displaced.expansion(16_383), [0x91, 0xFF, 0x7F]);
    }

    #[test]
    fn everything_at_once() {
        let everything = Settings {
            displaced: true,
            applied: Some(Applied {
                services: 1,
                marker: (1 << 14) + (2 << 7) + 3,
            }),
            ..with_class_1()
        };
        let wanted = [0x81, 0x9B, 0x80, 0xDF, 0xA9, 0x85, 0xC9, 0x81, 0x82, 0x03];
        assert_eq!(everything.expansion(95), wanted);
        assert_eq!(everything.expansion_size(), 10);
        assert_eq!(everything.rule_causes(16_384), []);
        assert_eq!(everything.value_causes(CORE), []);
    }

    #[test]
    fn rules_of_10() {
        let right = with_class_1();
        assert_eq!(right.rule_causes(20_480), []);
        let rules = |settings: Settings| settings.rule_causes(96);
        let without_program = Settings {
            program: None,
            ..right
        };
        assert_eq!(rules(without_program), [ClassWithoutProgram]);
        let program_0 = Settings {
            program: Some(0),
            ..right
        };
        assert_eq!(rules(program_0), [ClassWithoutProgram]);
        let without_type = Settings {
            program_type: None,
            ..right
        };
        assert_eq!(rules(without_type), [ClassWithoutAccess]);
        let class_20 = Settings {
            class_code: Some(20),
            ..right
        };
        assert_eq!(rules(class_20), [ClassNot1, AccessWithoutClass]);
        assert_eq!(class_20.value_causes(CORE), [PastWidth(Value::Class)]);
        assert_eq!(rules(with_type(1, 0)), [AccessWithoutClass]);
        assert_eq!(rules(with_type(2, 0)), []);
        assert_eq!(rules(with_services(0, 0)), []);
        assert_eq!(rules(with_services(1, 0)), [ServicesWithoutClass]);
        assert_eq!(rules(with_services(2, 0)), [ServicesOver1]);
        let displaced = Settings {
            displaced: true,
            ..Settings::default()
        };
        assert_eq!(displaced.rule_causes(16_384), []);
        assert_eq!(displaced.rule_causes(16_385), [DisplacementTooFar]);
    }

    #[test]
    fn values_of_14() {
        let values = |settings: Settings| settings.value_causes(CORE);
        for gain in 0..=255 {
            let settings = Settings {
                gain,
                ..Settings::default()
            };
            let wanted = match gain {
                7..=23 => vec![CoreGain7To23],
                0..=31 => vec![],
                _ => vec![PastWidth(Value::Gain)],
            };
            assert_eq!(values(settings), wanted, "{gain}");
            let past = gain > 31;
            assert_eq!(!settings.value_causes(1).is_empty(), past, "{gain}");
        }
        for blend in 0..=255 {
            let settings = Settings {
                blend,
                program: Some(0),
                ..Settings::default()
            };
            let wanted = match blend {
                0..=2 => vec![],
                3 => vec![Blend3],
                _ => vec![PastWidth(Value::Blend)],
            };
            assert_eq!(values(settings), wanted, "{blend}");
        }
        let blended = Settings {
            blend: 1,
            program: Some(7),
            ..Settings::default()
        };
        assert_eq!(values(blended), [BlendWithProgram]);
        let program_8 = Settings {
            program: Some(8),
            ..Settings::default()
        };
        assert_eq!(values(program_8), [PastWidth(Value::Program)]);
        let long = Settings {
            common_delay: 64,
            latency: 8,
            ..Settings::default()
        };
        let wanted = [PastWidth(Value::CommonDelay), PastWidth(Value::Latency)];
        assert_eq!(values(long), wanted);
        assert_eq!(values(with_type(2, 255)), [PastWidth(Value::Access)]);
        assert_eq!(values(with_services(7, (1 << 21) - 1)), []);
        assert_eq!(
            values(with_services(8, 1 << 21)),
            [PastWidth(Value::Services), PastWidth(Value::Marker)]
        );
    }
}
