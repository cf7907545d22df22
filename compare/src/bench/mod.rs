//! What `make bench` runs: every exported function and its counterpart in the [`second`](crate::second)
//! implementation on the same inputs, timed or with their instructions counted.

mod cases;
mod counts;
mod library;
mod pipes;
mod report;
mod row;
mod streams;
mod times;

pub use cases::rows;
pub use counts::run_marked;
pub use report::{print_counts, print_times};
pub use row::Row;
