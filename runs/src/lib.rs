//! The proved committer beside the unchanged Rust. README.md says what is compared and how.

pub mod behind;
pub mod commits;
pub mod compare;
pub mod counts;
pub mod known;
pub mod library;
pub mod lists;
pub mod needed;
pub mod notation;
pub mod outlook;
pub mod play;
pub mod random;
pub mod removes;
pub mod rules;
pub mod rust;
pub mod sample;
pub mod shrink;
pub mod skipped;
pub mod traces;
pub mod view;
