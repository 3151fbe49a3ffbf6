// Unchanged.
include!(concat!(env!("TYCHO_CONSENSUS"), "/moderator/journal/event.rs"));
