//! Stand-in for the reference's error type: the cases that the copied files
//! name, and `State` for what `require` refuses.
use crate::time::TimeError;

#[derive(Clone, Copy, Debug, PartialEq, Eq)]
pub enum Error {
    Internal(&'static str),
    BadInput(&'static str),
    State(&'static str),
    Unmapped {
        address: u16,
        write: bool,
        width: u8,
    },
    Time(TimeError),
}

impl From<TimeError> for Error {
    fn from(error: TimeError) -> Self {
        Self::Time(error)
    }
}
