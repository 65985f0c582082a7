//! What the bench engineer's commands share: the readable text of tasks and arrivals, its
//! tagged fields, the listing of a run, the refusals in words, the picture of all, and the
//! experiment of 000.

pub mod experiment;
pub mod fields;
pub mod lanes;
pub mod listing;
pub mod picture;
pub mod refusals;
pub mod service;
pub mod sheet;
pub mod text;
