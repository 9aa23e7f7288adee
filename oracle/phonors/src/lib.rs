//! The seven modules of phonors that are ported, compiled where they stand and
//! never copied, and the edited versions of them; build.rs writes the list.

pub mod measured;
pub mod watched;

include!(concat!(env!("OUT_DIR"), "/modules.rs"));
