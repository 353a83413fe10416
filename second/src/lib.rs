//! A second implementation of document 01's base version and of document 02's
//! Papers 1 to 4, 6, 7, 9 and 14, written from the papers alone and in a shape of its own: a run
//! is simulated message by message, with a mailbox for each process and a switch
//! in between.
//!
//! | Paper | Here |
//! |---|---|
//! | "The ticket", refusals 1 to 8 | [`lines`], [`ticket`] |
//! | 02, Paper 1: letters of either case | [`lines`] |
//! | 02, Paper 2: the messages of each process | [`process::MessageCounts`], [`report`] |
//! | 02, Paper 3: what each byte is as a digit, by a rule | [`lines`] |
//! | 02, Paper 4: which messages are dropped, and so not counted | [`switch::Switch`] |
//! | 02, Paper 6: the first settling round | [`Simulator::settling_round`] |
//! | 02, Paper 7: the reason of each process in each round | [`round_reason`], [`process::Course`] |
//! | 02, Paper 9: pricing from what is decided | [`pricing`] |
//! | 02, Paper 14: parts called in any order | [`orders`], [`host`], [`run_states`] |
//! | "A round" | [`process`], [`switch`], [`simulation`] |
//! | "The result", refusal 9, settling | [`Simulator`], [`report`] |
//! | "The desk part", refusals 9 to 12 | [`local`] |
//! | "The desk part" and "A round" together | [`separate`] |
//! | "Refused calls, by operation" | [`refusal`] |
//! | "Worked runs" | [`worked`] |
//!
//! The paper's stations, desks and frames are processes and messages here, and
//! a process that goes dark has crashed, as in document 001.
//! [`generate`], [`patterns`] and [`corpus`] make tickets to try implementations
//! on and [`tenders`] tender lines, [`recount`] counts and gives reasons in another way, and [`interface`] is what the
//! implementations have in common. [`worlds`] changes the rules one at a time and
//! shows which claims fail then.

#![forbid(unsafe_code)]
#![warn(missing_docs)]

pub mod corpus;
pub mod generate;
pub mod host;
pub mod interface;
pub mod lines;
pub mod local;
pub mod orders;
pub mod patterns;
pub mod pricing;
pub mod process;
pub mod recount;
pub mod refusal;
pub mod report;
pub mod rng;
pub mod round_reason;
pub mod run_states;
pub mod separate;
pub mod simulation;
pub mod switch;
pub mod tenders;
pub mod ticket;
pub mod worked;
pub mod worlds;

mod simulator;

pub use refusal::{Reason, Refusal};
pub use round_reason::RoundReason;
pub use simulator::Simulator;
pub use ticket::{Crash, Failure, Ticket};
