//! Document 01, and No. 1 to No. 7 of document 02, written for speed: no allocation, the state changed where it is kept, answers written straight into the lent buffer.
//! It shares no table and no code with the proved module, which it is measured beside.

pub mod command;
pub mod module;
pub mod profile;
pub mod reader;
pub mod weight;
