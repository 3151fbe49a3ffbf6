//! The calls through the static library, as document 01 defines them.

mod behind;
mod cases;
mod commits;
mod common;
mod draws;
mod full_size;
mod games;
mod lists;
mod model;
mod needed;
mod noise;
mod outlooks;
mod payloads;
mod picks;
mod plays;
mod random_runs;
mod records;
mod refusals;
mod removes;
mod skipped;
mod tables;
mod version;
