//! Stand-in: nothing is sent or downloaded.

pub mod peer_schedule;

pub use peer_schedule::{PeerSchedule, PeerScheduleStateless, StatsRanges};

#[derive(Clone)]
pub struct Downloader;

#[derive(Debug)]
pub struct QueryRequestTag;
