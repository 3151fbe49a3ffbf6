//! The C functions of the proved library and the structs that cross to them: `include/committer.h` in Rust. That file
//! says what each function asks, answers and refuses.

use std::mem::{offset_of, size_of};

/// A digest as four words, the most significant first.
pub type Digest = [u64; 4];

#[repr(C)]
#[derive(Clone, Copy, Debug, PartialEq, Eq, PartialOrd, Ord, Hash)]
pub struct Version {
    pub major: u32,
    pub minor: u32,
    pub patch: u32,
}

#[repr(C)]
#[derive(Clone, Copy, Debug, PartialEq, Eq)]
pub struct PointId {
    pub round: u32,
    pub author: u32,
    pub digest: Digest,
}

/// A digest that crosses by itself.
#[repr(C)]
#[derive(Clone, Copy, Debug, PartialEq, Eq)]
pub struct DigestWords {
    pub words: Digest,
}

/// A number of 128 bits: high times 2^64, plus low.
#[repr(C)]
#[derive(Clone, Copy, Debug, PartialEq, Eq, Hash)]
pub struct Wide {
    pub high: u64,
    pub low: u64,
}

/// The generator.
#[repr(C)]
#[derive(Clone, Copy, Debug, PartialEq, Eq, Hash)]
pub struct Pcg {
    pub state: Wide,
    pub increment: Wide,
}

/// A draw, and the generator to draw the next one from.
#[repr(C)]
#[derive(Clone, Copy, Debug, PartialEq, Eq)]
pub struct Drawn {
    pub value: u64,
    pub next: Pcg,
}

/// Who decides a game of keepers and spoilers.
#[repr(C)]
#[derive(Clone, Copy, Debug, PartialEq, Eq)]
pub struct Reach {
    /// 31, or 0 for none
    pub refused: u32,
    /// 1 for yes
    pub forced: u32,
}

/// What a writer of records answers.
#[repr(C)]
#[derive(Clone, Copy, Debug, PartialEq, Eq)]
pub struct Written {
    /// 26 or 21, or 0 for none
    pub refused: u32,
    /// of the record, 0 if refused
    pub length: usize,
}

/// A retained round: its peers, and the author of its used mark plus 1, or 0 for none.
#[repr(C)]
#[derive(Clone, Copy, Debug, PartialEq, Eq)]
pub struct RoundRecord {
    pub peers: u32,
    pub used_anchor_proof: u32,
}

/// A trusted point of the inspector's last round.
#[repr(C)]
#[derive(Clone, Copy, Debug, PartialEq, Eq)]
pub struct Entry {
    pub author: u32,
    pub digest: Digest,
    pub has_previous: u32,
    pub previous: Digest,
    pub unreferenced_by: u32,
}

#[repr(C)]
#[derive(Clone, Copy, Debug, PartialEq, Eq)]
pub struct Memory {
    pub last: u32,
    pub count: usize,
    pub entries: [Entry; 128],
}

/// What the host keeps between the calls. All fields are numbers, so any bytes are a state.
#[repr(C)]
#[derive(Clone, Copy, Debug, PartialEq, Eq)]
pub struct State {
    /// 1 started, 2 reset, other numbers neither
    pub phase: u32,
    /// used places
    pub count: usize,
    pub genesis: u32,
    pub commit_history_rounds: u32,
    pub deduplicate_rounds: u32,
    /// rounds from bottom to top are retained
    pub bottom: u32,
    pub top: u32,
    /// the round plus 1, or 0 for none
    pub last_committed_proof: u32,
    /// the round plus 1, or 0 for none
    pub last_anchor: u32,
    pub full_history_bottom: u32,
    pub first_executable: u32,
    /// 0 disarmed, 1 before the gap question, else after it
    pub emit_first_after_gap: u32,
    /// round r in record r % 512
    pub rounds: [RoundRecord; 512],
    pub memory: Memory,
}

#[repr(C)]
#[derive(Clone, Copy, Debug, PartialEq, Eq)]
pub struct Reply {
    /// 0 for none
    pub refused: u32,
    /// 1 for yes
    pub said: u32,
    /// handed out, or finished before a refusal, by a commit; told by an outlook
    pub anchors: u32,
    /// the round of a history conflict, else 0
    pub conflict: u32,
    pub state: State,
}

#[repr(C)]
#[derive(Clone, Copy, Debug, PartialEq, Eq)]
pub struct Start {
    pub genesis: u32,
    pub commit_history_rounds: u32,
    pub deduplicate_rounds: u32,
    pub bottom: u32,
    pub peers: u32,
    /// 0 for no
    pub after_gap: u32,
    /// `NOBODY` for none
    pub used: u32,
}

/// `used` of a start whose bottom has no used mark.
pub const NOBODY: u32 = u32::MAX;

#[repr(C)]
#[derive(Clone, Copy, Debug, PartialEq, Eq)]
pub struct Resolution {
    pub status: u32,
    /// bit 0 proof, 1 trigger, 2 cause
    pub marks: u32,
    pub top_proof: PointId,
    pub evidence: u32,
    pub includes: usize,
    pub witness: usize,
    pub payload_len: u32,
    pub payload_bytes: u32,
}

/// The counters of a peer over the rounds that a remove reports.
#[repr(C)]
#[derive(Clone, Copy, Debug, Default, PartialEq, Eq, Hash)]
pub struct Counters {
    /// rounds with its used mark
    pub was_leader: u16,
    /// rounds without a point of status 1 to 4
    pub skipped_rounds: u16,
    /// rounds with a valid point
    pub valid_points: u16,
    pub points_proved: u16,
    /// points of status 1 to 4 beyond the first of a round
    pub equivocated: u16,
    /// not proved, with a cause that has a DAG round
    pub trans_invalid_points: u16,
    /// not certified, with a cause that has a DAG round
    pub invalid_points: u16,
    /// not certified
    pub ill_formed_points: u16,
    /// proofs of points that it signed and didn't reference
    pub references_skipped: u16,
}

// the layout that the library was built with
const _: () = assert!(size_of::<usize>() == 8);
const _: () = assert!(size_of::<Version>() == 12);
const _: () = assert!(size_of::<PointId>() == 40);
const _: () = assert!(size_of::<Pcg>() == 32);
const _: () = assert!(size_of::<Drawn>() == 40);
const _: () = assert!(size_of::<Reach>() == 8);
const _: () = assert!(offset_of!(Written, length) == 8);
const _: () = assert!(size_of::<Written>() == 16);
const _: () = assert!(size_of::<Entry>() == 88);
const _: () = assert!(size_of::<Memory>() == 11280);
const _: () = assert!(offset_of!(State, rounds) == 56);
const _: () = assert!(offset_of!(State, memory) == 4152);
const _: () = assert!(size_of::<State>() == 15432);
const _: () = assert!(offset_of!(Reply, state) == 16);
const _: () = assert!(size_of::<Reply>() == 15448);
const _: () = assert!(size_of::<Start>() == 28);
const _: () = assert!(size_of::<Resolution>() == 80);
const _: () = assert!(size_of::<Counters>() == 18);

// the reference to the layout's function that every program with this crate has
#[used]
static LAYOUT_NEEDED: extern "C" fn() -> u32 = committer_layout_2;

// the version, the layout, the generator and the game, which are lent nothing
unsafe extern "C" {
    pub safe fn committer_library_version() -> Version;

    /// Answers the number in its name. The library of another layout has no function of this name.
    pub safe fn committer_layout_2() -> u32;

    pub safe fn committer_seed(digest: DigestWords) -> Pcg;

    pub safe fn committer_draw(generator: Pcg) -> Drawn;

    pub safe fn committer_reach_of(
        peers: u32,
        keepers: u32,
        quorum: u32,
        reaching: u32,
        author: u32,
        distance: u32,
    ) -> Reach;
}

// Safety, of all of them: each pointer is to as many words (or bytes, of place lists and buffer) as its length says, and
// no two of what is lent overlap.
unsafe extern "C" {
    pub fn committer_start(
        state: State,
        keys: *mut u64,
        keys_len: usize,
        links: *mut u64,
        links_len: usize,
        certs: *mut u64,
        certs_len: usize,
        order: *mut u64,
        order_len: usize,
        with: Start,
    ) -> Reply;

    pub fn committer_reset(
        state: State,
        keys: *mut u64,
        keys_len: usize,
        links: *mut u64,
        links_len: usize,
        certs: *mut u64,
        certs_len: usize,
        order: *mut u64,
        order_len: usize,
    ) -> Reply;

    pub fn committer_round(
        state: State,
        keys: *const u64,
        keys_len: usize,
        links: *const u64,
        links_len: usize,
        certs: *const u64,
        certs_len: usize,
        order: *const u64,
        order_len: usize,
        round: u32,
        peers: u32,
    ) -> Reply;

    pub fn committer_gap(
        state: State,
        keys: *const u64,
        keys_len: usize,
        links: *const u64,
        links_len: usize,
        certs: *const u64,
        certs_len: usize,
        order: *const u64,
        order_len: usize,
    ) -> Reply;

    pub fn committer_name(
        state: State,
        keys: *mut u64,
        keys_len: usize,
        links: *const u64,
        links_len: usize,
        certs: *mut u64,
        certs_len: usize,
        order: *mut u64,
        order_len: usize,
        id: PointId,
    ) -> Reply;

    pub fn committer_resolve(
        state: State,
        keys: *mut u64,
        keys_len: usize,
        links: *mut u64,
        links_len: usize,
        certs: *mut u64,
        certs_len: usize,
        order: *const u64,
        order_len: usize,
        id: PointId,
        resolution: Resolution,
        refs: *const u64,
        refs_len: usize,
    ) -> Reply;

    pub fn committer_certify(
        state: State,
        keys: *const u64,
        keys_len: usize,
        links: *const u64,
        links_len: usize,
        certs: *mut u64,
        certs_len: usize,
        order: *const u64,
        order_len: usize,
        id: PointId,
    ) -> Reply;

    pub fn committer_drop(
        state: State,
        keys: *mut u64,
        keys_len: usize,
        links: *mut u64,
        links_len: usize,
        certs: *mut u64,
        certs_len: usize,
        order: *mut u64,
        order_len: usize,
        round: u32,
    ) -> Reply;

    pub fn committer_commit(
        state: State,
        keys: *const u64,
        keys_len: usize,
        links: *const u64,
        links_len: usize,
        certs: *mut u64,
        certs_len: usize,
        order: *const u64,
        order_len: usize,
        id: PointId,
        lists: *const u8,
        lists_len: usize,
        buffer: *mut u8,
        buffer_len: usize,
    ) -> Reply;

    pub fn committer_outlook(
        state: State,
        keys: *const u64,
        keys_len: usize,
        links: *const u64,
        links_len: usize,
        certs: *const u64,
        certs_len: usize,
        order: *const u64,
        order_len: usize,
        id: PointId,
        buffer: *mut u8,
        buffer_len: usize,
    ) -> Reply;

    pub fn committer_remove(
        state: State,
        keys: *mut u64,
        keys_len: usize,
        links: *mut u64,
        links_len: usize,
        certs: *mut u64,
        certs_len: usize,
        order: *mut u64,
        order_len: usize,
        round: u32,
        has_since: u32,
        since: u32,
        buffer: *mut u8,
        buffer_len: usize,
    ) -> Reply;

    pub fn committer_merge(counters: *mut Counters, other: Counters);
}

// Safety, of all of them: each pointer is to as many bytes (or words, of a resolution's links) as its length says, and what
// is lent doesn't overlap the buffer.
unsafe extern "C" {
    pub fn committer_write_start(buffer: *mut u8, buffer_len: usize, with: Start) -> Written;

    pub fn committer_write_round(buffer: *mut u8, buffer_len: usize, round: u32, peers: u32) -> Written;

    pub fn committer_write_name(buffer: *mut u8, buffer_len: usize, id: PointId) -> Written;

    pub fn committer_write_resolve(
        buffer: *mut u8,
        buffer_len: usize,
        id: PointId,
        resolution: Resolution,
        refs: *const u64,
        refs_len: usize,
    ) -> Written;

    pub fn committer_write_certify(buffer: *mut u8, buffer_len: usize, id: PointId) -> Written;

    pub fn committer_write_commit(
        buffer: *mut u8,
        buffer_len: usize,
        id: PointId,
        lists: *const u8,
        lists_len: usize,
    ) -> Written;

    pub fn committer_write_remove(
        buffer: *mut u8,
        buffer_len: usize,
        round: u32,
        has_since: u32,
        since: u32,
    ) -> Written;

    pub fn committer_write_drop(buffer: *mut u8, buffer_len: usize, round: u32) -> Written;

    pub fn committer_write_gap(buffer: *mut u8, buffer_len: usize) -> Written;

    pub fn committer_write_reset(buffer: *mut u8, buffer_len: usize) -> Written;
}
