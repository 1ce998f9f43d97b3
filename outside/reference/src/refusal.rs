//! The refusal numbers of the scope document and of the change requests after
//! it. 0 is no refusal.

pub type Refusal = u16;

pub const ACCEPTED: u16 = 0;

// From the input.
pub const OUT_OF_RANGE: Refusal = 11;
pub const PARENT_NOT_BELOW: Refusal = 12;
pub const NO_SUCH_UNIT: Refusal = 13;
pub const NO_SUCH_SLOT: Refusal = 14;
pub const ANSWERS_TOO_SHORT: Refusal = 15;
pub const NO_SUCH_KIND: Refusal = 16;
pub const LINE_TOO_LONG: Refusal = 21;
pub const UNKNOWN_WORD: Refusal = 22;
pub const FIELD_COUNT: Refusal = 23;
pub const NOT_A_NUMBER: Refusal = 24;
pub const BOARD_MISPLACED: Refusal = 25;
pub const SCRIPT_TOO_LONG: Refusal = 26;
pub const NO_ROOM: Refusal = 27;
pub const PADDED_NUMBER: Refusal = 28;
pub const BEYOND_CENSUS: Refusal = 46;
pub const NO_SUCH_MOVE: Refusal = 47;
pub const LIST_TOO_SHORT: Refusal = 50;

// From the state.
pub const UNSOUND: Refusal = 30;
pub const NOT_ACTIVE: Refusal = 31;
pub const SUSPENDED: Refusal = 32;
pub const WEIGHT_ONE: Refusal = 33;
pub const SLOT_FILLED: Refusal = 34;
pub const SLOT_EMPTY: Refusal = 35;
pub const GRANT_PAST_LIMIT: Refusal = 36;
pub const DEBT_ABOVE_ZERO: Refusal = 37;
pub const NOT_WAITING: Refusal = 38;
pub const COUNTDOWN_ZERO: Refusal = 39;
pub const COUNTDOWN_ABOVE_ZERO: Refusal = 40;
pub const WEIGHT_ABOVE_ONE: Refusal = 41;
pub const ACTIVE_AT_VISIT: Refusal = 42;
pub const NOTHING_TO_VISIT: Refusal = 43;
pub const CREATED_FULL: Refusal = 44;
pub const BUSY: Refusal = 48;
pub const NO_FREE_SLOT: Refusal = 49;
