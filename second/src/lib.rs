//! Independent second implementation, from documents 01 and 02 alone, of eight instructions of the assist (R-4 has
//! added two to the five of document 01, R-9 one), with low-address protection, reference and change recording
//! and the expanded assist switched on by control register 6, and of the trail of calls.

#![forbid(unsafe_code)]

pub mod access;
pub mod address;
pub mod attempt;
pub mod bench_calls;
pub mod bits;
pub mod call;
pub mod checksum;
pub mod control_block;
pub mod damaged;
pub mod edges;
pub mod eight_calls;
pub mod ending;
pub mod fixed;
pub mod generate;
pub mod guest;
pub mod insert_storage_key;
pub mod load_real_address;
pub mod machine;
pub mod pairs;
pub mod real_page;
pub mod references;
pub mod report;
pub mod reset_reference_bit;
pub mod set_storage_key;
pub mod set_system_mask;
pub mod setup;
pub mod store_control;
pub mod store_then_mask;
pub mod trail;
pub mod translation;
pub mod vectors;

pub use attempt::{attempt, attempt_counted, Answer, CountedAnswer, Instruction};
pub use call::{Call, Request, StorageImage};
pub use ending::{Ending, Exception, NotThere};
pub use guest::Guest;
pub use references::{Reference, ReferenceKind, References};
