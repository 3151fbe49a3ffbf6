// Unchanged.
include!(concat!(env!("TYCHO_CONSENSUS"), "/intercom/peer_schedule/stats_ranges.rs"));
