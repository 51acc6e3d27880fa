//! A field of a finished frame record that is replaced by another value.

use oracle::paper::FrameRecord;
use oracle::paper::HintFields;
use oracle::paper::Slot;
use std::ops::RangeInclusive;

/// `ref2cur` of a skipped reference, where it stands as a number.
pub const SKIPPED: i8 = i8::MIN;

/// The field's number, and what is put there.
#[derive(Clone, Copy)]
pub struct Damage {
    pub field: u32,
    pub value: i32,
}

/// What stands in a field.
#[derive(Clone, Copy)]
pub enum Kind {
    Size,
    Flag,
    Count,
    Pocdiff,
    Reference,
    Ref2cur,
    Ref2ref,
}

impl Kind {
    pub fn of(field: u32) -> Self {
        match field {
            1..=12 => Self::Size,
            13 | 14 => Self::Flag,
            15 => Self::Count,
            16..=36 => [Self::Flag, Self::Flag, Self::Pocdiff][(field as usize - 16) % 3],
            37..=63 => match (field - 37) % 9 {
                0 => Self::Reference,
                1 => Self::Ref2cur,
                _ => Self::Ref2ref,
            },
            _ => panic!("no field {field}"),
        }
    }
}

impl Damage {
    pub const NONE: Self = Self { field: 0, value: 0 };

    pub const FIELDS: RangeInclusive<u32> = 1..=63;

    /// A value that no record may have in the field.
    pub fn ruin(field: u32) -> Self {
        let value = match Kind::of(field) {
            Kind::Size => 0,
            Kind::Pocdiff | Kind::Ref2cur => 127,
            Kind::Flag | Kind::Count | Kind::Reference | Kind::Ref2ref => 255,
        };
        Self { field, value }
    }

    pub fn is_none(self) -> bool {
        self.field == 0
    }

    /// The record with the damage.
    pub fn on(self, mut record: FrameRecord) -> FrameRecord {
        match self.field {
            0 => {}
            1..=12 => *size_field(&mut record, self.field) = self.unsigned(),
            13 => record.use_ref_frame_mvs = self.byte(),
            14 => record.temporal = self.byte(),
            15 => record.n_mfmvs = self.byte(),
            16..=36 => {
                let at = self.field as usize - 16;
                self.apply_to_hint(&mut record.hints[at / 3], at % 3);
            }
            37..=63 => {
                let at = self.field as usize - 37;
                self.apply_to_slot(&mut record.slots[at / 9], at % 9);
            }
            _ => panic!("no field {}", self.field),
        }
        record
    }

    fn apply_to_hint(self, fields: &mut HintFields, at: usize) {
        match at {
            0 => fields.sign_bias = self.byte(),
            1 => fields.mfmv_sign = self.byte(),
            _ => fields.pocdiff = self.signed(),
        }
    }

    fn apply_to_slot(self, slot: &mut Slot, at: usize) {
        match at {
            0 => slot.reference = self.byte(),
            1 => slot.ref2cur = Some(self.signed()).filter(|&distance| distance != SKIPPED),
            _ => slot.ref2ref[at - 2] = self.byte(),
        }
    }

    fn unsigned(self) -> u32 {
        self.value.try_into().expect("the value fits its field")
    }

    fn byte(self) -> u8 {
        self.value.try_into().expect("the value fits its field")
    }

    fn signed(self) -> i8 {
        self.value.try_into().expect("the value fits its field")
    }
}

/// Fields 1 to 12.
pub fn size_field(record: &mut FrameRecord, field: u32) -> &mut u32 {
    match field {
        1 => &mut record.width,
        2 => &mut record.height,
        3 => &mut record.iw4,
        4 => &mut record.ih4,
        5 => &mut record.iw8,
        6 => &mut record.ih8,
        7 => &mut record.sbsz,
        8 => &mut record.stride,
        9 => &mut record.tile_rows,
        10 => &mut record.n_blocks,
        11 => &mut record.n_tile_threads,
        12 => &mut record.n_frame_threads,
        _ => panic!("field {field} is no size"),
    }
}

#[cfg(test)]
mod tests {
    use super::*;
    use crate::question::FrameQuestion;
    use oracle::paper;

    #[test]
    fn each_field_can_be_ruined_alone() {
        let record = FrameQuestion::BASE.record().unwrap();
        let mut seen = vec![record];
        for field in Damage::FIELDS {
            let ruined = Damage::ruin(field).on(record);
            assert_eq!(paper::record_answer(&ruined), 1, "field {field}");
            assert!(!seen.contains(&ruined), "field {field} is another's");
            seen.push(ruined);
        }
    }

    #[test]
    fn a_skipped_reference_has_a_number() {
        let value = SKIPPED.into();
        let record = FrameQuestion::BASE.record().unwrap();
        let record = Damage { field: 47, value }.on(record);
        assert_eq!(record.slots[1].ref2cur, None);
        assert_eq!(paper::record_answer(&record), 0);
    }
}
