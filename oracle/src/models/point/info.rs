// Unchanged.
include!(concat!(env!("TYCHO_CONSENSUS"), "/models/point/info.rs"));
