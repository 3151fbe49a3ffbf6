//! Calls as records of a trace: the format of docs/FORMATS.md. The library writes them; they are read here, apart from it.

use std::fmt;

use crate::anchor::ID_BYTES;
use crate::refusal::Refusal;
use crate::sys;
use crate::types::{Link, PointId, PointInfo, Start};

/// A call; a commit has its place lists. All but an outlook have a record in a trace.
#[derive(Clone, Debug, PartialEq, Eq, Hash)]
pub enum Call {
    Start(Start),
    Round { round: u32, peers: u32 },
    Name(PointId),
    Resolve(PointId, PointInfo),
    Certify(PointId),
    Commit(PointId, Vec<u8>),
    Remove { round: u32, since: Option<u32> },
    Drop(u32),
    Gap,
    Reset,
    Outlook(PointId),
}

/// A record that ends a trace. [`Refusal::BadRecord`] (26): it is cut short, its rest is under 2 or above 4,096 bytes, or it
/// has another length than its kind's. [`Refusal::UnknownRecord`] (27), before that last test: its version or kind is
/// unknown.
#[derive(Clone, Copy, Debug, PartialEq, Eq)]
pub struct Broken {
    /// offset of its first byte
    pub at: usize,
    pub refusal: Refusal,
}

impl fmt::Display for Broken {
    fn fmt(&self, f: &mut fmt::Formatter<'_>) -> fmt::Result {
        write!(f, "refused {} {}", self.refusal.number(), self.at)
    }
}

impl std::error::Error for Broken {}

/// Of the longest record's bytes: a buffer of so many has room for any.
pub const RECORD_MAX: usize = 4 + REST_MAX;
const VERSION: u8 = 1;
const REST_MIN: usize = 2;
const REST_MAX: usize = 4096;
const NOBODY: u8 = 255;
/// Of a link's bytes.
const LINK: usize = 33;
/// Of a resolution's bytes before its links.
const RESOLVE: usize = 82;
/// Of its payload numbers, after its links.
const PAYLOAD: usize = 8;
/// The kind byte of the bench's outlooks; in a trace it is unknown.
const OUTLOOK: u8 = 11;
/// Where the kind byte stands.
const KIND_AT: usize = 5;

// ---- writing, by the library

/// Writes the record of a call to the buffer's beginning and returns its length. Refused with 26 if a field or the rest
/// doesn't fit, with a used author of 255 or more, and for an outlook; then with 21 if the buffer is too short. A refused
/// call writes nothing.
pub fn write(call: &Call, buffer: &mut [u8]) -> Result<usize, Refusal> {
    let (room, length) = (buffer.as_mut_ptr(), buffer.len());
    // Safety: pointers and lengths are those of slices; the buffer is lent by `&mut`, so nothing overlaps it.
    let written = unsafe {
        match call {
            Call::Start(with) => sys::committer_write_start(room, length, with.into()),
            Call::Round { round, peers } => sys::committer_write_round(room, length, *round, *peers),
            Call::Name(id) => sys::committer_write_name(room, length, id.into()),
            Call::Resolve(id, info) => {
                let refs = info.refs();
                sys::committer_write_resolve(room, length, id.into(), info.into(), refs.as_ptr(), refs.len())
            }
            Call::Certify(id) => sys::committer_write_certify(room, length, id.into()),
            Call::Commit(id, lists) => {
                sys::committer_write_commit(room, length, id.into(), lists.as_ptr(), lists.len())
            }
            Call::Remove { round, since } => {
                let (has_since, since) = (since.is_some().into(), since.unwrap_or(0));
                sys::committer_write_remove(room, length, *round, has_since, since)
            }
            Call::Drop(round) => sys::committer_write_drop(room, length, *round),
            Call::Gap => sys::committer_write_gap(room, length),
            Call::Reset => sys::committer_write_reset(room, length),
            Call::Outlook(_) => return Err(Refusal::BadRecord),
        }
    };
    match written.refused {
        0 => Ok(written.length),
        number => Err(Refusal::of(number, 0).expect("a record is refused with 26 or 21")),
    }
}

/// The call as a record. Refused with 26, see [`write`].
pub fn encode(call: &Call) -> Result<Vec<u8>, Refusal> {
    let mut record = vec![0; RECORD_MAX];
    let length = write(call, &mut record)?;
    record.truncate(length);
    Ok(record)
}

/// An outlook as a record of the bench, which no trace has: kind 11, else as a name.
pub fn outlook(id: &PointId) -> Result<Vec<u8>, Refusal> {
    let mut record = encode(&Call::Name(*id))?;
    record[KIND_AT] = OUTLOOK;
    Ok(record)
}

// ---- reading

/// The call of the record at the beginning, and the length of the record.
pub fn decode(bytes: &[u8]) -> Result<(Call, usize), Broken> {
    decoded(bytes, false).map_err(|refusal| Broken { at: 0, refusal })
}

/// The calls of a trace, in order. A record that is refused ends it.
pub fn calls(bytes: &[u8]) -> Calls<'_> {
    Calls { bytes, at: 0, ended: false, bench: false }
}

/// The calls of what the bench's programs `replay` and `recorded` play: a trace that may have outlooks.
pub fn bench_calls(bytes: &[u8]) -> Calls<'_> {
    Calls { bench: true, ..calls(bytes) }
}

/// See [`calls`].
#[derive(Clone, Debug)]
pub struct Calls<'a> {
    bytes: &'a [u8],
    at: usize,
    ended: bool,
    bench: bool,
}

impl Iterator for Calls<'_> {
    type Item = Result<Call, Broken>;

    fn next(&mut self) -> Option<Self::Item> {
        if self.ended || self.at == self.bytes.len() {
            return None;
        }
        match decoded(&self.bytes[self.at..], self.bench) {
            Ok((call, length)) => {
                self.at += length;
                Some(Ok(call))
            }
            Err(refusal) => {
                self.ended = true;
                Some(Err(Broken { at: self.at, refusal }))
            }
        }
    }
}

fn decoded(bytes: &[u8], bench: bool) -> Result<(Call, usize), Refusal> {
    let rest = whole(bytes).ok_or(Refusal::BadRecord)?;
    let (version, kind, fields) = (rest[0], rest[1], &rest[2..]);
    let length = 4 + rest.len();
    if bench && (version, kind) == (VERSION, OUTLOOK) {
        return if fields.len() == ID_BYTES {
            Ok((Call::Outlook(id(fields)), length))
        } else {
            Err(Refusal::BadRecord)
        };
    }
    if version != VERSION || !(1..=10).contains(&kind) {
        return Err(Refusal::UnknownRecord);
    }
    call_of(kind, fields).map(|call| (call, length)).ok_or(Refusal::BadRecord)
}

/// The rest of the record at the beginning, if it isn't too short or long and all there.
fn whole(bytes: &[u8]) -> Option<&[u8]> {
    let rest = number(bytes.get(..4)?) as usize;
    if !(REST_MIN..=REST_MAX).contains(&rest) {
        return None;
    }
    bytes.get(4..4 + rest)
}

/// The call of a kind, 1 to 10, and its fields, if they are of the kind's length.
fn call_of(kind: u8, f: &[u8]) -> Option<Call> {
    if kind == 4 {
        return resolve(f);
    }
    Some(match (kind, f.len()) {
        (1, 22) => Call::Start(start(f)),
        (2, 8) => Call::Round { round: number(&f[..4]), peers: number(&f[4..]) },
        (3, ID_BYTES) => Call::Name(id(f)),
        (5, ID_BYTES) => Call::Certify(id(f)),
        (6, ID_BYTES..) => Call::Commit(id(f), f[ID_BYTES..].to_vec()),
        (7, 9) => Call::Remove { round: number(&f[..4]), since: (f[4] != 0).then(|| number(&f[5..])) },
        (8, 4) => Call::Drop(number(f)),
        (9, 0) => Call::Gap,
        (10, 0) => Call::Reset,
        _ => return None,
    })
}

/// The number in four bytes.
fn number(f: &[u8]) -> u32 {
    f.iter().fold(0, |above, byte| above << 8 | u32::from(*byte))
}

fn digest(f: &[u8]) -> [u8; 32] {
    std::array::from_fn(|i| f[i])
}

fn id(f: &[u8]) -> PointId {
    PointId { round: number(&f[..4]), author: f[4].into(), digest: digest(&f[5..]) }
}

fn start(f: &[u8]) -> Start {
    Start {
        genesis: number(&f[..4]),
        commit_history_rounds: number(&f[4..8]),
        deduplicate_rounds: number(&f[8..12]),
        bottom: number(&f[12..16]),
        peers: number(&f[16..20]),
        after_gap: f[20] != 0,
        used: (f[21] != NOBODY).then(|| f[21].into()),
    }
}

fn resolve(f: &[u8]) -> Option<Call> {
    let includes = usize::from(*f.get(80)?);
    let witness = usize::from(*f.get(81)?);
    let end = RESOLVE + LINK * (includes + witness);
    if f.len() != end + PAYLOAD {
        return None;
    }
    let (near, far) = f[RESOLVE..end].split_at(LINK * includes);
    let info = PointInfo {
        status: f[37].into(),
        proof: f[38] & 1 != 0,
        trigger: f[38] & 2 != 0,
        cause: f[38] & 4 != 0,
        top_proof: id(&f[39..]),
        evidence: number(&f[76..80]),
        includes: links(near),
        witness: links(far),
        payload_len: number(&f[end..end + 4]),
        payload_bytes: number(&f[end + 4..]),
    };
    Some(Call::Resolve(id(f), info))
}

fn links(f: &[u8]) -> Vec<Link> {
    f.chunks_exact(LINK).map(|link| Link { peer: link[0].into(), digest: digest(&link[1..]) }).collect()
}
