//! The commands over the library, a module each: the program's answers beside the reference, and the
//! script; and the examples of pages.

mod appendix;
mod beside;
mod certificate;
mod envelope_pieces;
mod every_script;
mod loss_curve;
mod pages;
mod peaks;
mod size;
mod why;
mod worst_trace;
