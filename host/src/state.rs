//! The state as bytes, for hosts that store it. The bytes are those of the C struct, its padding zero.

use crate::sys::{Digest, Entry, Memory, RoundRecord, State};

/// The number of bytes of a state.
pub const STATE_BYTES: usize = size_of::<State>();

impl Default for State {
    /// The state before the first start: all zero.
    fn default() -> State {
        State::from_bytes(&[0; STATE_BYTES])
    }
}

impl State {
    pub fn to_bytes(&self) -> Vec<u8> {
        let mut out = Writer(Vec::with_capacity(STATE_BYTES));
        out.half(self.phase);
        out.word(self.count as u64);
        for half in [
            self.genesis,
            self.commit_history_rounds,
            self.deduplicate_rounds,
            self.bottom,
            self.top,
            self.last_committed_proof,
            self.last_anchor,
            self.full_history_bottom,
            self.first_executable,
            self.emit_first_after_gap,
        ] {
            out.half(half);
        }
        for record in &self.rounds {
            out.half(record.peers);
            out.half(record.used_anchor_proof);
        }
        out.memory(&self.memory);
        out.0
    }

    /// Any bytes are a state; calls refuse with 2 one that breaks a rule that all calls keep.
    pub fn from_bytes(bytes: &[u8; STATE_BYTES]) -> State {
        let mut from = Reader { bytes, at: 0 };
        State {
            phase: from.half(),
            count: from.word() as usize,
            genesis: from.half(),
            commit_history_rounds: from.half(),
            deduplicate_rounds: from.half(),
            bottom: from.half(),
            top: from.half(),
            last_committed_proof: from.half(),
            last_anchor: from.half(),
            full_history_bottom: from.half(),
            first_executable: from.half(),
            emit_first_after_gap: from.half(),
            rounds: std::array::from_fn(|_| RoundRecord { peers: from.half(), used_anchor_proof: from.half() }),
            memory: from.memory(),
        }
    }
}

struct Writer(Vec<u8>);

impl Writer {
    fn half(&mut self, half: u32) {
        self.0.extend(half.to_ne_bytes());
    }

    /// Words stand at multiples of 8.
    fn align(&mut self) {
        self.0.resize(self.0.len().next_multiple_of(8), 0);
    }

    fn word(&mut self, word: u64) {
        self.align();
        self.0.extend(word.to_ne_bytes());
    }

    fn digest(&mut self, digest: &Digest) {
        for word in digest {
            self.word(*word);
        }
    }

    fn memory(&mut self, memory: &Memory) {
        self.half(memory.last);
        self.word(memory.count as u64);
        for entry in &memory.entries {
            self.half(entry.author);
            self.digest(&entry.digest);
            self.half(entry.has_previous);
            self.digest(&entry.previous);
            self.half(entry.unreferenced_by);
            self.align();
        }
    }
}

struct Reader<'a> {
    bytes: &'a [u8],
    at: usize,
}

impl Reader<'_> {
    fn take<const N: usize>(&mut self) -> [u8; N] {
        let taken = self.bytes[self.at..self.at + N].try_into().expect("N bytes");
        self.at += N;
        taken
    }

    fn half(&mut self) -> u32 {
        u32::from_ne_bytes(self.take())
    }

    fn align(&mut self) {
        self.at = self.at.next_multiple_of(8);
    }

    fn word(&mut self) -> u64 {
        self.align();
        u64::from_ne_bytes(self.take())
    }

    fn digest(&mut self) -> Digest {
        std::array::from_fn(|_| self.word())
    }

    fn entry(&mut self) -> Entry {
        let entry = Entry {
            author: self.half(),
            digest: self.digest(),
            has_previous: self.half(),
            previous: self.digest(),
            unreferenced_by: self.half(),
        };
        self.align();
        entry
    }

    fn memory(&mut self) -> Memory {
        Memory { last: self.half(), count: self.word() as usize, entries: std::array::from_fn(|_| self.entry()) }
    }
}
