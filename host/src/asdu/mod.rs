//! ASDUs, read, checked, told plain and written by both sides.
pub mod answers;
pub mod cases;
pub mod compare;
pub mod inputs;
pub mod judge;
pub mod layout;
pub mod make;
mod payloads;
pub mod proved;
pub mod record;
pub mod sample;
pub mod writing;
