// Unchanged.
include!(concat!(env!("TYCHO_CONSENSUS"), "/models/stats.rs"));

// Added: a read of a private field.
impl MempoolPeerStats {
    pub fn read_first_round(&self) -> u32 {
        self.first_round
    }
}
