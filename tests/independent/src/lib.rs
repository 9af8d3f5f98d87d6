//! Document 01 and the first seven requests of document 02 written a second time, from the paper, by plain arithmetic and strings.
//! It shares no table and no code with the proved module, which it is compared with.

pub mod buffer;
pub mod byte_sweeps;
pub mod cases;
pub mod compare;
pub mod decode;
pub mod faults;
pub mod module;
pub mod on_change;
pub mod profile;
pub mod random;
pub mod reader;
pub mod replay;
pub mod sent_on_change;
pub mod singly;
pub mod sweeps;
pub mod tally;
pub mod weight;
