// Unchanged.
include!(concat!(env!("TYCHO_CONSENSUS"), "/dag/commit/back.rs"));

// Added: a read of a private field.
impl DagBack {
    pub fn read_rounds(&self) -> &BTreeMap<Round, DagRound> {
        &self.rounds
    }
}
