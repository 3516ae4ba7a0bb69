//! What the comparison of the archive with the model is made of.

#[cfg(feature = "archive")]
pub mod archive;
pub mod arrows;
pub mod cases;
pub mod comparison;
mod dispatch_faults;
pub mod dispatcher;
pub mod examples;
pub mod faults;
pub mod graph;
pub mod histories;
mod length_faults;
pub mod lengths;
pub mod lists;
pub mod model;
pub mod part;
pub mod progress;
pub mod random;
pub mod retries;
mod retry_faults;
mod script_faults;
pub mod scripts;
pub mod sections;
mod sound_faults;
pub mod spelling;
pub mod spoiled;
pub mod tables;
pub mod turns;
pub mod unreached;
pub mod vectors;
pub mod watchers;
pub mod written;
