// Unchanged; build.rs says why it is read from OUT_DIR.
include!(concat!(env!("OUT_DIR"), "/commit/mod.rs"));

// Added: reads of private fields.
impl Committer {
    pub fn read_dag(&self) -> &DagBack {
        &self.dag
    }
    pub fn read_inspector(&self) -> &RoundInspector {
        &self.inspector
    }
    pub fn read_full_history_bottom(&self) -> Round {
        self.full_history_bottom
    }
    pub fn read_emit_first_after_gap(&self) -> Option<bool> {
        self.emit_first_after_gap
    }
}
