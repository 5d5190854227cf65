//! Links: histories of events on both sides, compared after every event.
pub mod bench;
pub mod cases;
pub mod compare;
pub mod directed;
pub mod events;
pub mod judge;
pub mod make;
pub mod proved;
pub mod record;
pub mod run;
pub mod shown;
