//! The scripts `test` and `bin/loss-table`, each in a small repository of its own with tools that only
//! pretend to be the real ones; and what pages name.
//!
//! A binary of its own: the tests of the program start it without waiting for those here that write a
//! script, which then could not be run for a moment.

mod first_run;
mod gate;
mod loss_table;
mod paths;
mod stages;
