//! The weight board after the scope document, written plainly so that another
//! implementation can be compared with it.
//!
//! * [`Board`]: opening, soundness, depth, finished, the eight steps, a run, the
//!   counting rounds.
//! * [`read_line`], [`field`], [`is_padded`], [`read_number`], [`write_step`]:
//!   the script.
//! * [`list`]: the listing of a whole script, bytes to bytes.
//! * [`tell_rows`]: what a program is to tell for a file of cases.
//! * [`census`]: how many short lists of steps leave a board finished.
//! * [`touched`], [`independent`]: which two steps may come in either order.
//! * [`tell_orders`]: what a program is to tell for a file of such pairs.
//! * [`Board::longest_length`], [`Board::write_longest`], [`Board::longest_short`]:
//!   the longest drain of a board.
//! * [`tell_drains`]: what a program is to tell for a file of boards to drain.
//!
//! Every refusal is the number that the scope document or a change request
//! gives it, see [`refusal`].

mod board;
mod census;
mod listing;
mod longest;
mod orders;
pub mod refusal;
mod rounds;
mod rows;
mod script;
mod step;

pub use board::{
    Board, Kind, Slot, State, Unit, DEBT_LIMIT, DELAY_LIMIT, FULL_WEIGHT, SLOTS, UNITS,
};
pub use census::{census, choices, Counts};
pub use listing::{
    list, list_into, listing_length, script_lines, walk, write_heading, write_listing_line,
    HEADING, SCRIPT_LIMIT,
};
pub use longest::{tell_drains, ShortDrain, SHORT};
pub use orders::{independent, tell_orders, touched, Touched};
pub use rounds::{Finding, Round, Rounds};
pub use rows::tell_rows;
pub use script::{
    field, field_count, is_padded, read_line, read_number, write_step, Record, LINE_LIMIT, WORDS,
};
pub use step::{share, Step};
