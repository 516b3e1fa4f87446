//! `bin/beside`: verdicts and losses of anyone's rows as the reference works them out, in words; and the
//! script, which reads rows of many shapes and ends with a status of its own for rows that break a
//! rule.

#[allow(dead_code, reason = "its main is for the program")]
#[path = "../../src/bin/beside/main.rs"]
mod program;

mod answers;
pub mod script;
mod words;
