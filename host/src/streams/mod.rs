//! Frames assembled from streams that are cut anywhere, by both sides.
pub mod answers;
pub mod bench;
pub mod compare;
mod edges;
pub mod judge;
mod make;
mod model;
pub mod proved;
pub mod sample;
