//! The source, unchanged, with stand-ins for what it leans on.
pub mod profile;

include!(concat!(env!("OUT_DIR"), "/source.rs"));
