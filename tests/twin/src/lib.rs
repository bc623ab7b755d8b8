//! A plain Rust twin of the rules in docs/RULES.md.
//!
//! It is written from that page as typed commands and settings, and takes no code, table or constant
//! from the proved library. The programs in `compare/` hold the two against each other: through the C
//! entries, and replays by what they print.
//!
//! - [`refusal`]: the refusals, and where in a packet's data a value is at fault;
//! - [`command`]: the eighteen commands, their data sizes and ranges (refusals 9, 10 and 11);
//! - [`packet`]: reading (refusals 2 to 11) and making;
//! - [`reply`]: reply writing and reading;
//! - [`settings`]: the typed settings, their ranges and their values after reset;
//! - [`block`]: the layout of the settings block, both ways (refusal 1);
//! - [`front_end`]: one packet on what a host lends (refusals 1 and 12, effects, the reply), and reset;
//! - [`rows`]: the row mark: which rows differ from the live ones (refusal 1);
//! - [`runs`]: compressed gains: pairs of a run and a gain, and what they stand for;
//! - [`compressor`] and [`splitter`]: gains as the fewest pairs, and pairs as packets (refusals 9, 10, 12, 1);
//! - [`planner`]: upload planning (refusals 10 and 1, plan, room, choices and batch);
//! - [`replay`]: session files, and what a replay prints;
//! - [`scripts`]: sessions by hand, each packet with its answer.

#[cfg(test)]
mod bench_gains;
#[cfg(test)]
mod bench_packets;
#[cfg(test)]
mod bench_places;
#[cfg(test)]
mod bench_rows;
pub mod block;
pub mod command;
pub mod compressor;
pub mod fields;
pub mod front_end;
pub mod packet;
pub mod planner;
pub mod refusal;
pub mod replay;
pub mod reply;
pub mod rows;
pub mod runs;
pub mod scripts;
pub mod settings;
pub mod splitter;
