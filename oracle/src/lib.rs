//! The oracle: plays scripts of calls and input logs as documents 01 and 02 say
//! they answer, audits such logs, makes scripts and logs, and compares another
//! program with what it answers itself.
//!
//! Written from those two and the page on the driver's script alone.

pub mod answer;
pub mod audit;
pub mod boundary;
mod command;
pub mod compare;
mod dice;
mod driver;
pub mod input;
mod line;
mod log;
pub mod make;
pub mod model;
mod place;
pub mod program;
pub mod reach;
pub mod recording;
pub mod replay;
mod script;
mod sizes;
mod status;
mod tails;
mod tally;
#[cfg(test)]
mod tests;
mod text;

pub use script::play;
pub use tally::table;
