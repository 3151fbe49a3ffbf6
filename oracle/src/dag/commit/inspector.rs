// Unchanged.
include!(concat!(env!("TYCHO_CONSENSUS"), "/dag/commit/inspector.rs"));

// Added: reads of private fields.
impl RoundInspector {
    pub fn read_last_round(&self) -> Round {
        self.last_round
    }
    /// For each peer the points it authored, and its signed proofs by the digest signed.
    pub fn read_memory(
        &self,
    ) -> impl Iterator<Item = (&PeerId, &[PointInfo], &FastHashMap<Digest, PointInfo>)> {
        (self.last_round_data_map.iter())
            .map(|(peer, data)| (peer, data.authored.as_slice(), &data.signed_proofs))
    }
}
