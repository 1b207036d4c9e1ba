//! A seeded generator of lawful, limit and damaged books, sheets and tables, and of whole requests
//! for the programs `trial` and `groups`. The same seed gives the same bytes everywhere.

pub mod chance;
pub mod damage;
pub mod inputs;
pub mod lawful;
pub mod limits;
pub mod plan;
pub mod requests;
pub mod rooms;
pub mod sheets;
pub mod stored;
pub mod swaps;
pub mod tables;
