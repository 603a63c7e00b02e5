//! The receiver of one channel in plain Rust, written for speed from the rules alone. It shares no code with the proved crates.

pub mod calls;
pub mod capture;
pub mod noting;
pub mod orders;
pub mod packet;
pub mod panel;
pub mod receiver;
pub mod refusal;
pub mod sheet;
pub mod sheet_text;
pub mod store;
pub mod trace;
pub mod watch;
