//! The same algorithms in idiomatic Rust: what the library's speed is measured
//! against, and what stands in for the library when the trials are tried out.

pub mod board;
pub mod check;
pub mod list;
pub mod record;
pub mod report;
pub mod route;
pub mod rows;
mod set;
pub mod widest;

pub use board::Board;
pub use check::{check, column, Checked};
pub use list::list;
pub use record::canonical;
pub use report::{report, report_drawing};
pub use route::steps::State;
pub use route::{formula, need, route, Figures};
pub use rows::density;
pub use widest::widest;
