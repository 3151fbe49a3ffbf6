// Unchanged.
include!(concat!(env!("TYCHO_CONSENSUS"), "/models/dag_point.rs"));
