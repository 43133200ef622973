//! The second program: a plain rendering of document 01, and of the first requests of document 02,
//! that shares nothing with the first one. Which of the requests are in force is one number,
//! [`requests::IN_FORCE`].
//!
//! Every function that renders a sentence of document 01, of a request or of how a request is
//! read quotes it. Nothing here is made fast where that would hide the sentence; the exception is
//! [`load::verdict`], which keeps running sums, and beside it stands
//! [`load::verdict_each_length`], which does not.
//!
//! - [`requests`]: which requests are in force
//! - [`set`]: streams and their stages (request 4), sets, the event limit and the jittered cycle
//!   (with request 2)
//! - [`load`]: demand, H, long-run load and the verdicts
//! - [`sheet`]: reading and writing the packed sheet, of both versions (request 4)
//! - [`door`]: which posts come too early (request 6)
//! - [`parties`]: whose streams and places they are (request 8)
//! - [`state`]: the state, its rules, and the calls start, post, choose and unit
//! - [`trace`]: the trace program
//! - [`view`]: what a party sees of a run, and its answers from that alone (request 8)
//! - [`recording`]: recordings of calls, and the cab's recorder (request 1)
//! - [`replay`]: replay of a recording, step by step and whole (request 1)
//! - [`cable`]: a sheet that comes in pieces (request 5)
//! - [`check`]: the resumable check, and what a late demand is made of (request 7)
//! - [`console`]: the console program

#![forbid(unsafe_code)]
#![warn(missing_docs)]

pub mod cable;
pub mod check;
pub mod console;
pub mod door;
pub mod load;
pub mod parties;
pub mod recording;
pub mod refusal;
pub mod replay;
pub mod requests;
pub mod set;
pub mod sheet;
pub mod state;
pub mod trace;
pub mod view;
