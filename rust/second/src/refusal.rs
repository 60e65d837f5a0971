//! Refusal numbers and answers. Paper 01, Refusal numbers.
//!   Refusal   the fifteen reasons, each with its number
//!   Said      what a call answers: number and value
//!   Answer    the same while it is being worked out

/// 01, the table "no. | given exactly when"
#[derive(Clone, Copy, Debug, PartialEq, Eq)]
pub(crate) enum Refusal {
    ArrivingLength = 1,
    FlagOrOutcomeBits = 2,
    NoSuchRegister = 3,
    BadValue = 4,
    NotAllowedNow = 5,
    ErrorStands = 6,
    BadAOrLength = 7,
    Disagrees = 8,
    TxDataFull = 9,
    TxenClear = 10,
    Nothing = 11,
    TxStatusFull = 12,
    OutShort = 13,
    Memory = 14,
    State = 15,
}

/// What a call answers. `refusal` 0: accepted.
#[derive(Clone, Copy, Debug, PartialEq, Eq)]
pub struct Said {
    pub refusal: u32,
    pub value: u32,
}

pub(crate) type Answer = Result<u32, Refusal>;

impl Said {
    /// 01: "A refusal returns value 0"
    pub(crate) fn of(answer: Answer) -> Said {
        match answer {
            Ok(value) => Said { refusal: 0, value },
            Err(refusal) => Said {
                refusal: refusal as u32,
                value: 0,
            },
        }
    }
}
