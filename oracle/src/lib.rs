//! imago's own storage code behind document 01's events, and what compares it with other sides.

pub mod compare;
pub mod coverage;
pub mod departures;
#[cfg(dock)]
pub mod dock_parts;
#[cfg(dock)]
pub mod dock_scratch;
#[cfg(dock)]
pub mod dock_side;
#[cfg(dock)]
pub mod dock_words;
pub mod document;
pub mod document_parts;
pub mod document_side;
pub mod event;
pub mod executor;
pub mod fixed;
pub mod flight;
pub mod imago_parts;
pub mod imago_side;
pub mod lists;
pub mod memory;
pub mod parts;
pub mod plain;
pub mod plant;
pub mod plant_parts;
pub mod port;
pub mod progress;
pub mod random;
pub mod replay;
pub mod runner;
pub mod script;
pub mod session;
pub mod shrink;
pub mod side;
pub mod store;
pub mod trace;
