// Unchanged.
include!(concat!(env!("TYCHO_CONSENSUS"), "/models/point/parts.rs"));
