//! A plain model of document 01 with the requests of document 02 that have
//! landed, written from the documents alone.
//!
//! It makes the outputs that the proved implementation is compared with, so it
//! favours the documents' own words over speed.

pub mod chart;
pub mod frame;
pub mod harness;
pub mod kernel;
