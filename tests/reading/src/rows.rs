//! "RowStatus": what a set value does to a row in a state, read from the
//! paper.

const NONE: u64 = 0;
const ACTIVE: u64 = 1;
const NOT_IN_SERVICE: u64 = 2;
const NOT_READY: u64 = 3;

const WRONG_VALUE: u32 = 10;
const INCONSISTENT_VALUE: u32 = 12;
const NO_STATE: u32 = 40;

/// The answer's number and the next state, "unchanged unless 0".
pub fn set_row(state: u64, value: i64, complete: bool, willing: bool) -> (u32, u64) {
    if state > NOT_READY {
        return (NO_STATE, state);
    }
    match next_state(state, value, complete, willing) {
        Ok(next) => (0, next),
        Err(number) => (number, state),
    }
}

fn next_state(state: u64, value: i64, complete: bool, willing: bool) -> Result<u64, u32> {
    match (value, state) {
        (1, ACTIVE | NOT_IN_SERVICE) => Ok(ACTIVE),
        (1, NOT_READY) if complete => Ok(ACTIVE),
        (2, NOT_IN_SERVICE) => Ok(NOT_IN_SERVICE),
        (2, ACTIVE) if willing => Ok(NOT_IN_SERVICE),
        (2, ACTIVE) => Err(WRONG_VALUE),
        (2, NOT_READY) if complete => Ok(NOT_IN_SERVICE),
        (4, NONE) if complete => Ok(ACTIVE),
        (5, NONE) if !willing => Err(WRONG_VALUE),
        (5, NONE) if complete => Ok(NOT_IN_SERVICE),
        (5, NONE) => Ok(NOT_READY),
        (1 | 2 | 4 | 5, _) => Err(INCONSISTENT_VALUE),
        (6, _) => Ok(NONE),
        _ => Err(WRONG_VALUE),
    }
}
