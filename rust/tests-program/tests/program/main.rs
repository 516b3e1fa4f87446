//! The program beside the reference, and the reference beside second ways to work its answers out.

mod buffer_counts;
mod generated;
mod limits;
mod long_traces;
mod orders;
mod pieces;
mod requests;
mod samples;
mod small_cases;
