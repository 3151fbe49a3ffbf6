// Unchanged.
include!(concat!(env!("TYCHO_CONSENSUS"), "/models/output.rs"));
