//! What the commands `plan` and `draw` do between reading and writing.
//!
//! `plan` takes events and gives the script of their plan; `draw` takes a script
//! and gives a picture of its run. Every judgement is the archive's: these
//! modules hand it the input, put its refusals into words, and draw what it
//! answers.

pub mod input;

// plan
pub mod events;
pub mod explain;
pub mod planning;

// draw: the run
pub mod lines;
pub mod recording;
pub mod spans;
pub mod stop;

// draw: the picture
pub mod captions;
pub mod lanes;
pub mod layout;
pub mod legend;
pub mod palette;
pub mod picture;
pub mod rows;
pub mod svg;
