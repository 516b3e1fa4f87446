//! What tests share: finding and running the table-printing program, drawing stream files, devices of
//! buckets, paths, squares and ports, comparing what it prints with the reference, and running the repository's
//! scripts.

pub mod cases;
pub mod compare;
pub mod damage;
pub mod dice;
pub mod draw;
pub mod help;
pub mod kinds;
pub mod over_library;
pub mod path;
pub mod port;
pub mod profile;
pub mod program;
pub mod samples;
pub mod square;
pub mod stage;
