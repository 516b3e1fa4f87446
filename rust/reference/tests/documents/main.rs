//! The reference beside documents 01 and 02: their rows by hand, their definitions a second way, and
//! searches through everything that is tiny.

mod buckets;
mod certificates;
mod chains;
mod closure;
mod files;
mod judge;
mod lowest_loss;
mod paths;
mod pencil;
mod plausible_and_wrong;
mod ports;
mod refusals;
mod rows_by_hand;
mod sizes;
mod squares;
mod worst;
