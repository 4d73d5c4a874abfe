//! What the comparisons of sheet programs share: the sheets, how a program runs
//! on one, how many of them are compared, and how wide the offsets are.

mod bytes;
mod command_line;
mod comparison;
mod damage;
mod difference;
mod fixed;
mod folder;
mod make;
mod many;
mod numbers;
mod offsets;
mod program;
#[path = "../../compare/src/rng.rs"]
mod rng;
mod shrink;

pub use command_line::run_comparison;
pub use comparison::{Comparison, Tally};
pub use difference::{first_difference_in_bytes, first_difference_in_lines};
pub use fixed::sheets as fixed_sheets;
pub use folder::with_folder;
pub use make::sheet;
pub use offsets::{width_of, WIDTHS};
pub use program::{InputMode, Output, Runner};
