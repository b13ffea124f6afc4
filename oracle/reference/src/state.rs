//! Stand-in for the reference's tests of a loaded state.
use crate::Error;

pub(crate) fn require(holds: bool, complaint: &'static str) -> Result<(), Error> {
    if holds {
        Ok(())
    } else {
        Err(Error::State(complaint))
    }
}
