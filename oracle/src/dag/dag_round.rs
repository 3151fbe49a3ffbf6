// Unchanged.
include!(concat!(env!("TYCHO_CONSENSUS"), "/dag/dag_round.rs"));
