//! What is timed gives the right answers.

mod paths;
mod ports;
mod same_answers;
mod sizes;
mod squares;
mod streams;
