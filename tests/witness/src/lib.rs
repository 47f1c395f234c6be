//! A plain simulator of the schedule bench of document 01, written from that
//! document and from Figure 2 of the 2005 paper alone, so that it can stand
//! as a witness against another program.

pub mod boards;
pub mod commands;
pub mod commuting;
pub mod counterexample;
pub mod history;
pub mod interleaving;
pub mod judge;
pub mod machine;
pub mod moir;
pub mod rng;
pub mod schedule;
pub mod season;
pub mod station;
pub mod texts;
