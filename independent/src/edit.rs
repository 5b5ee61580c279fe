//! An edit: an operator and its numbers as they arrive, in range or not.

#[derive(Clone, Copy, Debug, PartialEq, Eq)]
pub enum Operator {
    Mvfs,
    Kvfs,
    Mev,
    Kev,
    Mef,
    Kef,
    Kemr,
    Mekr,
    Kfmrh,
    Move,
}

impl Operator {
    /// In the order of their kinds in a record, which count from 1.
    pub const ALL: [Operator; 10] = [
        Operator::Mvfs,
        Operator::Kvfs,
        Operator::Mev,
        Operator::Kev,
        Operator::Mef,
        Operator::Kef,
        Operator::Kemr,
        Operator::Mekr,
        Operator::Kfmrh,
        Operator::Move,
    ];

    pub fn name(self) -> &'static str {
        match self {
            Operator::Mvfs => "mvfs",
            Operator::Kvfs => "kvfs",
            Operator::Mev => "mev",
            Operator::Kev => "kev",
            Operator::Mef => "mef",
            Operator::Kef => "kef",
            Operator::Kemr => "kemr",
            Operator::Mekr => "mekr",
            Operator::Kfmrh => "kfmrh",
            Operator::Move => "move",
        }
    }

    pub fn by_name(word: &[u8]) -> Option<Operator> {
        Operator::ALL.into_iter().find(|operator| operator.name().as_bytes() == word)
    }

    pub fn kind(self) -> u8 {
        self as u8 + 1
    }

    pub fn by_kind(kind: u8) -> Option<Operator> {
        Operator::ALL.into_iter().find(|operator| operator.kind() == kind)
    }

    /// How many of the fields a to e it has.
    pub fn field_count(self) -> usize {
        match self {
            Operator::Mvfs => 4,
            Operator::Mev | Operator::Mekr => 3,
            Operator::Mef => 5,
            Operator::Kemr | Operator::Kfmrh => 2,
            Operator::Kvfs | Operator::Kev | Operator::Kef | Operator::Move => 1,
        }
    }

    pub fn has_coordinates(self) -> bool {
        matches!(self, Operator::Mvfs | Operator::Mev | Operator::Move)
    }
}

/// Fields and coordinates that the operator does not have are zero.
#[derive(Clone, Copy, Debug, PartialEq, Eq)]
pub struct Edit {
    pub operator: Operator,
    pub fields: [i64; 5],
    pub coordinates: [i64; 3],
}

impl Edit {
    /// The edit with these numbers, the fields first and then the
    /// coordinates; none if there are too few or too many.
    pub fn new(operator: Operator, numbers: &[i64]) -> Option<Edit> {
        let (fields, coordinates) = numbers.split_at_checked(operator.field_count())?;
        let wanted = if operator.has_coordinates() { 3 } else { 0 };
        if coordinates.len() != wanted {
            return None;
        }
        let mut edit = Edit { operator, fields: [0; 5], coordinates: [0; 3] };
        edit.fields[..fields.len()].copy_from_slice(fields);
        edit.coordinates[..wanted].copy_from_slice(coordinates);
        Some(edit)
    }
}
