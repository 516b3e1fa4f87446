//! `bin/size`: the smallest limits of a file and what smaller ones lose, as the reference works them out;
//! every line that there can be, in words; and the script: an answer, or one line that says why there is
//! none.

#[allow(dead_code, reason = "its main is for the program")]
#[path = "../../src/bin/size/main.rs"]
mod program;

mod answers;
mod page;
pub mod script;
mod words;
