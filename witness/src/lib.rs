//! The witness: a plain second opinion on porting files, verdicts and holders, written from the
//! paper alone, and a generator of scenarios.

pub mod calendar;
pub mod chance;
pub mod commands;
pub mod damage;
pub mod dialogue;
pub mod examples;
pub mod faults;
pub mod files;
pub mod known;
pub mod layout;
pub mod lines;
pub mod refused;
pub mod scenario;
pub mod store;
pub mod stories;
pub mod strike;
pub mod told;
pub mod verdict;
pub mod worked;
pub mod wrong;
