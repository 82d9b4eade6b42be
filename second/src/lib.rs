//! A second program for the brokerage book. It follows the rules and nothing else, as plainly as can
//! be, so that another program may be compared against it.
//!
//! "01" in the comments is the page "Build scope and exact rules".

pub mod calls;
pub mod explain;
pub mod features;
pub mod figures;
pub mod gen;
pub mod hex;
pub mod mutate;
pub mod record;
pub mod rng;
pub mod runs;
pub mod sentences;
pub mod slow;
pub mod sound;
pub mod stream;
pub mod tally;
pub mod words;
