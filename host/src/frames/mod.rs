//! Frames, read, told plain and written by both sides.
pub mod answers;
pub mod cases;
pub mod compare;
pub mod judge;
pub mod layout;
pub mod make;
pub mod proved;
pub mod sample;
mod writing;
