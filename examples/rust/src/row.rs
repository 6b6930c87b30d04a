//! What a set of RowStatus does to a row.

use std::fmt::{self, Display, Formatter};

use crate::set_row;

/// The state of a row.
#[derive(Debug, Clone, Copy, PartialEq, Eq, Hash)]
pub enum RowState {
    /// There is no row.
    None,
    Active,
    NotInService,
    NotReady,
    /// A number over 3, which is no state.
    Other(u64),
}

impl RowState {
    pub fn number(self) -> u64 {
        match self {
            Self::None => 0,
            Self::Active => 1,
            Self::NotInService => 2,
            Self::NotReady => 3,
            Self::Other(number) => number,
        }
    }

    /// Answers a set of RowStatus on a row in this state. `complete`: no required column is lacking after this set.
    /// `willing`: the agent is willing to take the row out of service, or to create it so.
    pub fn set(self, value: RowValue, complete: bool, willing: bool) -> RowStep {
        let step = set_row(self.number(), value.number(), complete, willing);
        RowStep { answer: RowAnswer::from(step.number), next: RowState::from(step.next) }
    }
}

impl From<u64> for RowState {
    fn from(number: u64) -> Self {
        match number {
            0 => Self::None,
            1 => Self::Active,
            2 => Self::NotInService,
            3 => Self::NotReady,
            _ => Self::Other(number),
        }
    }
}

/// A value that RowStatus is set to.
#[derive(Debug, Clone, Copy, PartialEq, Eq, Hash)]
pub enum RowValue {
    Active,
    NotInService,
    /// It may be read and not be set: every set of it is refused.
    NotReady,
    CreateAndGo,
    CreateAndWait,
    Destroy,
    /// Any other number, refused like notReady.
    Other(i64),
}

impl RowValue {
    pub fn number(self) -> i64 {
        match self {
            Self::Active => 1,
            Self::NotInService => 2,
            Self::NotReady => 3,
            Self::CreateAndGo => 4,
            Self::CreateAndWait => 5,
            Self::Destroy => 6,
            Self::Other(number) => number,
        }
    }
}

impl From<i64> for RowValue {
    fn from(number: i64) -> Self {
        match number {
            1 => Self::Active,
            2 => Self::NotInService,
            3 => Self::NotReady,
            4 => Self::CreateAndGo,
            5 => Self::CreateAndWait,
            6 => Self::Destroy,
            _ => Self::Other(number),
        }
    }
}

/// The answer to a set, and the row's next state: as it was, unless the answer is `NoError`.
#[derive(Debug, Clone, Copy, PartialEq, Eq, Hash)]
pub struct RowStep {
    pub answer: RowAnswer,
    pub next: RowState,
}

/// What is answered to a set of RowStatus.
#[derive(Debug, Clone, Copy, PartialEq, Eq, Hash)]
pub enum RowAnswer {
    NoError,
    /// The set value is refused.
    WrongValue,
    /// The set value does not fit the row's state.
    InconsistentValue,
    /// The row was handed in with a state over 3.
    NoSuchState,
    /// A number that no set is answered with.
    Other(u32),
}

impl RowAnswer {
    pub fn number(self) -> u32 {
        match self {
            Self::NoError => 0,
            Self::WrongValue => 10,
            Self::InconsistentValue => 12,
            Self::NoSuchState => 40,
            Self::Other(number) => number,
        }
    }

    /// What it means, in a short sentence: the one that `mib_row_text` of the header has.
    pub fn text(self) -> &'static str {
        match self {
            Self::NoError => "noError: the set is done",
            Self::WrongValue => "wrongValue: the set value is refused",
            Self::InconsistentValue => "inconsistentValue: the set value does not fit the row's state",
            Self::NoSuchState => "the row was handed in with a state over 3",
            Self::Other(_) => "no call answers this number",
        }
    }
}

impl From<u32> for RowAnswer {
    fn from(number: u32) -> Self {
        match number {
            0 => Self::NoError,
            10 => Self::WrongValue,
            12 => Self::InconsistentValue,
            40 => Self::NoSuchState,
            _ => Self::Other(number),
        }
    }
}

impl Display for RowAnswer {
    fn fmt(&self, f: &mut Formatter<'_>) -> fmt::Result {
        f.pad(self.text())
    }
}
