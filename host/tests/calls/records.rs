//! Calls as records: what the library writes, and what is read from bytes.

use committer::record::{self, Broken, RECORD_MAX, bench_calls, calls, decode, encode, write};
use committer::{Call, Link, PointId, PointInfo, Refusal, Start};

use crate::common::{Noise, beginning, point, valid};

// ---- an encoder of the tests' own

/// A number in so many bytes; none if it doesn't fit.
fn field(number: u64, width: usize) -> Option<Vec<u8>> {
    let bytes = number.to_be_bytes();
    let (above, below) = bytes.split_at(8 - width);
    above.iter().all(|byte| *byte == 0).then(|| below.to_vec())
}

pub fn id_fields(id: &PointId) -> Option<Vec<u8>> {
    Some([field(id.round.into(), 4)?, field(id.author.into(), 1)?, id.digest.to_vec()].concat())
}

fn start_fields(with: &Start) -> Option<Vec<u8>> {
    let numbers = [with.genesis, with.commit_history_rounds, with.deduplicate_rounds, with.bottom, with.peers];
    let mut fields: Vec<u8> = numbers.into_iter().flat_map(u32::to_be_bytes).collect();
    fields.push(if with.after_gap { 1 } else { 0 });
    fields.push(match with.used {
        None => 255,
        Some(author @ 0..=254) => author as u8,
        Some(_) => return None,
    });
    Some(fields)
}

fn resolve_fields(id: &PointId, info: &PointInfo) -> Option<Vec<u8>> {
    let marks = [(info.proof, 1), (info.trigger, 2), (info.cause, 4)];
    let mut fields = id_fields(id)?;
    fields.extend(field(info.status.into(), 1)?);
    fields.push(marks.iter().filter(|mark| mark.0).map(|mark| mark.1).sum());
    fields.extend(id_fields(&info.top_proof)?);
    fields.extend(info.evidence.to_be_bytes());
    fields.extend(field(info.includes.len() as u64, 1)?);
    fields.extend(field(info.witness.len() as u64, 1)?);
    for link in info.includes.iter().chain(&info.witness) {
        fields.extend(field(link.peer.into(), 1)?);
        fields.extend(link.digest);
    }
    fields.extend(info.payload_len.to_be_bytes());
    fields.extend(info.payload_bytes.to_be_bytes());
    Some(fields)
}

/// Kind byte and fields of a call; none if it can't be written.
fn kind_and_fields(call: &Call) -> Option<(u8, Vec<u8>)> {
    Some(match call {
        Call::Start(with) => (1, start_fields(with)?),
        Call::Round { round, peers } => (2, [round.to_be_bytes(), peers.to_be_bytes()].concat()),
        Call::Name(id) => (3, id_fields(id)?),
        Call::Resolve(id, info) => (4, resolve_fields(id, info)?),
        Call::Certify(id) => (5, id_fields(id)?),
        Call::Commit(id, lists) => (6, [id_fields(id)?, lists.clone()].concat()),
        Call::Remove { round, since: None } => (7, [&round.to_be_bytes()[..], &[0; 5]].concat()),
        Call::Remove { round, since: Some(since) } => {
            (7, [&round.to_be_bytes()[..], &[1], &since.to_be_bytes()].concat())
        }
        Call::Drop(round) => (8, round.to_be_bytes().to_vec()),
        Call::Gap => (9, vec![]),
        Call::Reset => (10, vec![]),
        Call::Outlook(_) => return None,
    })
}

/// A record of any version, kind and fields.
pub fn record_of(version: u8, kind: u8, fields: &[u8]) -> Vec<u8> {
    let rest = fields.len() as u32 + 2;
    [&rest.to_be_bytes(), &[version, kind][..], fields].concat()
}

/// The record of a call; none if it can't be written.
fn own_record(call: &Call) -> Option<Vec<u8>> {
    let (kind, fields) = kind_and_fields(call)?;
    (fields.len() <= 4094).then(|| record_of(1, kind, &fields))
}

const BAD: Broken = Broken { at: 0, refusal: Refusal::BadRecord };
const UNKNOWN: Broken = Broken { at: 0, refusal: Refusal::UnknownRecord };

/// The library writes the record as the tests do, and both read back as the call; a call that has no record is refused with
/// 26, into a buffer of 0 bytes too. A buffer that is short by a byte is refused with 21. A refusal writes nothing, and the
/// bytes behind a record stay.
pub fn assert_recorded(call: &Call) {
    let mut buffer = [0xa5; RECORD_MAX + 3];
    let Some(own) = own_record(call) else {
        assert_eq!(write(call, &mut []), Err(Refusal::BadRecord), "{call:?}");
        assert_eq!(write(call, &mut buffer), Err(Refusal::BadRecord), "{call:?}");
        assert!(buffer.iter().all(|byte| *byte == 0xa5));
        assert_eq!(encode(call), Err(Refusal::BadRecord));
        return;
    };
    assert_eq!(decode(&own), Ok((call.clone(), own.len())));
    for short in [0, own.len() - 1] {
        assert_eq!(write(call, &mut buffer[..short]), Err(Refusal::NoRoom), "{call:?}");
        assert!(buffer.iter().all(|byte| *byte == 0xa5));
    }
    assert_eq!(write(call, &mut buffer), Ok(own.len()), "{call:?}");
    assert_eq!(buffer[..own.len()], own);
    assert!(buffer[own.len()..].iter().all(|byte| *byte == 0xa5));
    assert_eq!(write(call, &mut buffer[..own.len()]), Ok(own.len()));
    assert_eq!(encode(call), Ok(own));
}

/// The record of a call that has one.
pub fn written(call: &Call) -> Vec<u8> {
    encode(call).expect("a call that has a record")
}

// ---- the tests

fn one_of_each() -> Vec<Call> {
    let id = PointId { round: 0x0102_0304, author: 31, digest: std::array::from_fn(|i| i as u8) };
    let link = |peer| Link { peer, digest: [peer as u8 + 1; 32] };
    let info = PointInfo {
        status: 1,
        proof: true,
        trigger: false,
        cause: true,
        top_proof: PointId { round: u32::MAX, author: 7, digest: [9; 32] },
        evidence: 0xdead_beef,
        includes: (0..32).map(link).collect(),
        witness: vec![link(3), link(30)],
        payload_len: 0x0a0b_0c0d,
        payload_bytes: u32::MAX,
    };
    vec![
        Call::Start(Start {
            genesis: 1,
            commit_history_rounds: 2,
            deduplicate_rounds: 3,
            bottom: 4,
            peers: 5,
            after_gap: true,
            used: Some(6),
        }),
        Call::Start(Start { used: None, ..beginning() }),
        Call::Round { round: u32::MAX, peers: 0x8000_0001 },
        Call::Name(id),
        Call::Resolve(id, info),
        Call::Resolve(id, PointInfo { status: 255, ..PointInfo::default() }),
        Call::Certify(id),
        Call::Commit(id, vec![2, 0, 1, 255]),
        Call::Commit(id, vec![]),
        Call::Remove { round: 77, since: Some(12) },
        Call::Remove { round: 77, since: None },
        Call::Drop(4_000_000_000),
        Call::Gap,
        Call::Reset,
    ]
}

#[test]
fn calls_come_back() {
    let mut trace = Vec::new();
    for call in one_of_each() {
        assert_recorded(&call);
        trace.extend(written(&call));
    }
    let read: Result<Vec<Call>, Broken> = calls(&trace).collect();
    assert_eq!(read, Ok(one_of_each()));
}

#[test]
fn bytes_of_records() {
    assert_eq!(written(&Call::Gap), [0, 0, 0, 2, 1, 9]);
    assert_eq!(written(&Call::Reset), [0, 0, 0, 2, 1, 10]);
    assert_eq!(written(&Call::Drop(16_909_060)), [0, 0, 0, 6, 1, 8, 1, 2, 3, 4]);
    assert_eq!(written(&Call::Round { round: 1, peers: 2 }), [0, 0, 0, 10, 1, 2, 0, 0, 0, 1, 0, 0, 0, 2]);
    for (since, bytes) in [(None, [0; 5]), (Some(2), [1, 0, 0, 0, 2]), (Some(0), [1, 0, 0, 0, 0])] {
        let head = [0, 0, 0, 11, 1, 7, 0, 0, 0, 1];
        assert_eq!(written(&Call::Remove { round: 1, since }), [&head[..], &bytes].concat());
    }
    let lengths: Vec<usize> = one_of_each().iter().map(|call| written(call).len() - 6).collect();
    assert_eq!(lengths, [22, 22, 8, 37, 90 + 34 * 33, 90, 37, 41, 37, 9, 9, 4, 0, 0]);
    let start = written(&one_of_each()[0]);
    assert_eq!(start[6..], [0, 0, 0, 1, 0, 0, 0, 2, 0, 0, 0, 3, 0, 0, 0, 4, 0, 0, 0, 5, 1, 6]);
    let resolve = written(&one_of_each()[4]);
    assert_eq!(resolve[6 + 37..6 + 39], [1, 5]);
    assert_eq!(resolve[6 + 76..6 + 82], [0xde, 0xad, 0xbe, 0xef, 32, 2]);
    assert_eq!(resolve[6 + 82..6 + 84], [0, 1]);
    assert_eq!(resolve[6 + 82 + 34 * 33..], [10, 11, 12, 13, 255, 255, 255, 255]);
}

/// A used author is written to 254; 255 would read back as none.
#[test]
fn used_authors() {
    let start = |used| Call::Start(Start { used, ..beginning() });
    for (used, byte) in [(Some(0), 0), (Some(32), 32), (Some(254), 254), (None, 255)] {
        assert_recorded(&start(used));
        assert_eq!(written(&start(used))[27], byte);
    }
    for used in [255, 256, u32::MAX - 1, u32::MAX] {
        assert_recorded(&start(Some(used)));
        assert_eq!(encode(&start(Some(used))), Err(Refusal::BadRecord));
    }
}

/// What has no room in a record is refused, whatever the buffer, and what has is written, also if the call is refused then.
#[test]
fn numbers_without_room() {
    let id = point(11, 0);
    let by = |author| PointId { author, ..id };
    let links = |n, peer| vec![Link { peer, digest: [0; 32] }; n];
    let info = || valid(&[], &[]);
    for author in [31, 32, 255, 256, 65_536, u32::MAX] {
        let calls = [
            Call::Name(by(author)),
            Call::Certify(by(author)),
            Call::Commit(by(author), vec![0]),
            Call::Resolve(by(author), info()),
            Call::Resolve(id, PointInfo { status: author, ..info() }),
            Call::Resolve(id, PointInfo { top_proof: by(author), ..info() }),
            Call::Resolve(id, PointInfo { includes: links(1, author), ..info() }),
            Call::Resolve(id, PointInfo { witness: links(2, author), ..info() }),
        ];
        for call in calls {
            assert_recorded(&call);
            assert_eq!(encode(&call).is_ok(), author <= 255, "{call:?}");
        }
    }
    let numbers = [(121, 0, true), (0, 121, true), (61, 60, true), (61, 61, false), (122, 0, false), (0, 122, false)];
    let many = [(255, 0, false), (255, 255, false), (256, 0, false), (0, 256, false), (257, 0, false), (512, 3, false)];
    for (includes, witness, fits) in numbers.into_iter().chain(many) {
        let info = PointInfo { includes: links(includes, 0), witness: links(witness, 1), ..info() };
        let call = Call::Resolve(id, info);
        assert_recorded(&call);
        assert_eq!(encode(&call).map(|bytes| bytes.len()).ok(), fits.then_some(4089), "{includes} {witness}");
    }
}

/// A record has room for 4,057 bytes of lists.
#[test]
fn the_longest_lists() {
    let commit = |length| Call::Commit(point(11, 0), vec![7; length]);
    for length in [0, 1, 4056, 4057, 4058, 4059, 65_536] {
        assert_recorded(&commit(length));
        assert_eq!(encode(&commit(length)).is_ok(), length <= 4057);
    }
    let whole = written(&commit(4057));
    assert_eq!(whole.len(), RECORD_MAX);
    let longer = [&[0, 0, 0x10, 1], &whole[4..], &[7]].concat();
    assert_eq!(decode(&longer), Err(BAD));
}

/// No record of a trace is an outlook's; the bench has its own.
#[test]
fn outlooks() {
    let id = point(11, 31);
    let look = Call::Outlook(id);
    assert_recorded(&look);
    let bytes = record::outlook(&id).expect("an id that fits");
    assert_eq!(bytes, record_of(1, 11, &id_fields(&id).unwrap()));
    assert_eq!(decode(&bytes), Err(UNKNOWN));
    assert_eq!(calls(&bytes).collect::<Vec<_>>(), [Err(UNKNOWN)]);
    assert_eq!(bench_calls(&bytes).collect::<Vec<_>>(), [Ok(look)]);
    assert_eq!(record::outlook(&PointId { author: 256, ..id }), Err(Refusal::BadRecord));
    // of another version it is unknown there too; of another length, or cut short, it is bad
    assert_eq!(bench_calls(&record_of(2, 11, &[0; 37])).collect::<Vec<_>>(), [Err(UNKNOWN)]);
    for length in [0, 36, 38] {
        assert_eq!(bench_calls(&record_of(1, 11, &vec![0; length])).collect::<Vec<_>>(), [Err(BAD)]);
    }
    assert_eq!(bench_calls(&bytes[..42]).collect::<Vec<_>>(), [Err(BAD)]);
    let trace: Vec<u8> = one_of_each().iter().flat_map(written).collect();
    assert!(calls(&trace).eq(bench_calls(&trace)));
}

/// 26 for what is cut short, then 27 for version and kind, then 26 for the length of the kind.
#[test]
fn the_order_of_the_tests() {
    for call in one_of_each() {
        let whole = written(&call);
        for length in 0..whole.len() {
            assert_eq!(decode(&whole[..length]), Err(BAD), "cut to {length}");
        }
        let changed = |at: usize, byte| {
            let mut bytes = whole.clone();
            bytes[at] = byte;
            bytes
        };
        for version in [0, 2, 255] {
            assert_eq!(decode(&changed(4, version)), Err(UNKNOWN));
            let bytes = changed(4, version);
            assert_eq!(decode(&bytes[..bytes.len() - 1]), Err(BAD), "cut short first");
        }
        for kind in [0, 11, 12, 128, 255] {
            assert_eq!(decode(&changed(5, kind)), Err(UNKNOWN));
        }
    }
    // whole, of unknown version or kind, and of a length that no kind has
    for (version, kind, expected) in [(1, 9, BAD), (2, 9, UNKNOWN), (1, 11, UNKNOWN), (0, 0, UNKNOWN), (1, 10, BAD)] {
        assert_eq!(decode(&record_of(version, kind, &[0])), Err(expected));
    }
    let mut two = [written(&Call::Gap), written(&Call::Reset)].concat();
    two[10] = 9;
    let at = |refusal| [Ok(Call::Gap), Err(Broken { at: 6, refusal })];
    assert_eq!(calls(&two).collect::<Vec<_>>(), at(Refusal::UnknownRecord));
    two[9] = 3;
    assert_eq!(calls(&two).collect::<Vec<_>>(), at(Refusal::BadRecord));
    assert_eq!(Broken { at: 6, refusal: Refusal::BadRecord }.to_string(), "refused 26 6");
}

/// Rests of 0, 1, 4,097 and 4,294,967,295 bytes, there or not.
#[test]
fn lengths_of_rests() {
    for rest in [0, 1, 4097, 65_538, u32::MAX] {
        for more in [0, 1, 2, 4097, 70_000] {
            let bytes = [&rest.to_be_bytes()[..], &vec![1; more]].concat();
            assert_eq!(decode(&bytes), Err(BAD), "{rest} {more}");
        }
    }
    let long = Call::Commit(PointId { round: 0x0909_0909, author: 9, digest: [9; 32] }, vec![9; 4057]);
    assert_eq!(decode(&record_of(1, 6, &[9; 4094])), Ok((long, 4100)));
    assert_eq!(decode(&record_of(1, 9, &[0; 4094])), Err(BAD));
    assert_eq!(decode(&record_of(2, 9, &[0; 4094])), Err(UNKNOWN));
    assert_eq!(decode(&record_of(2, 9, &[0; 4095])), Err(BAD));
}

/// Every kind with every number of bytes: of the right length or 26.
#[test]
fn lengths_of_kinds() {
    for length in 0..=4094 {
        // the two numbers of a resolution's links are 0, or the numbers that its length asks for
        let mut fields = vec![0; length];
        let links = length.saturating_sub(90) / 33;
        for kind in 1..=10 {
            let right = match kind {
                1 => length == 22,
                2 => length == 8,
                3 | 5 => length == 37,
                4 => length == 90,
                6 => length >= 37,
                7 => length == 9,
                8 => length == 4,
                _ => length == 0,
            };
            let read = decode(&record_of(1, kind, &fields));
            assert_eq!(read.is_ok(), right, "{kind} {length}");
            assert!(right || read == Err(BAD));
        }
        if length >= 90 {
            (fields[80], fields[81]) = ((links / 2) as u8, (links - links / 2) as u8);
            let read = decode(&record_of(1, 4, &fields));
            assert_eq!(read.is_ok(), length % 33 == 90 % 33, "{length}");
        }
    }
}

/// A resolution that says more links than a record has room for, or has no payload numbers.
#[test]
fn lengths_of_resolutions() {
    for (includes, witness) in [(1, 0), (0, 1), (122, 0), (255, 255)] {
        let mut fields = vec![0; 90];
        (fields[80], fields[81]) = (includes, witness);
        assert_eq!(decode(&record_of(1, 4, &fields)), Err(BAD));
    }
    let mut fields = vec![3; 90 + 33 * 121];
    (fields[80], fields[81]) = (61, 60);
    let Ok((Call::Resolve(_, info), 4089)) = decode(&record_of(1, 4, &fields)) else { panic!("a whole record") };
    assert_eq!((info.includes.len(), info.witness.len()), (61, 60));
    for call in one_of_each().into_iter().filter(|call| matches!(call, Call::Resolve(..))) {
        let (kind, fields) = kind_and_fields(&call).unwrap();
        assert_eq!(decode(&record_of(1, kind, &fields[..fields.len() - 8])), Err(BAD));
    }
}

/// What is read and then written is the same call, and the same bytes but for what isn't read.
fn assert_normal(bytes: &[u8], normal: &[u8]) {
    let (call, length) = decode(bytes).expect("a whole record");
    assert_eq!(length, bytes.len());
    assert_eq!(written(&call), normal);
    assert_eq!(decode(normal), Ok((call, length)));
}

/// The record as it is written again.
fn normal(record: &[u8]) -> Vec<u8> {
    let mut bytes = record.to_vec();
    match bytes[5] {
        1 => bytes[26] = bytes[26].min(1),
        4 => bytes[44] %= 8,
        7 if bytes[10] == 0 => bytes[11..15].fill(0),
        7 => bytes[10] = 1,
        _ => {}
    }
    bytes
}

#[test]
fn what_is_not_read() {
    for flag in 0..=255u8 {
        let mut start = written(&Call::Start(beginning()));
        start[26] = flag;
        let Ok((Call::Start(read), _)) = decode(&start) else { panic!("a start") };
        assert_eq!(read.after_gap, flag != 0);
        assert_normal(&start, &normal(&start));
        let mut resolve = written(&one_of_each()[4]);
        resolve[44] = flag;
        let Ok((Call::Resolve(_, read), _)) = decode(&resolve) else { panic!("a resolution") };
        assert_eq!([read.proof, read.trigger, read.cause], [1, 2, 4].map(|bit| flag & bit != 0));
        assert_normal(&resolve, &normal(&resolve));
        for since in [0, 1, u32::MAX] {
            let remove = record_of(1, 7, &[&[0, 0, 0, 13, flag][..], &since.to_be_bytes()].concat());
            let expected = Call::Remove { round: 13, since: (flag != 0).then_some(since) };
            assert_eq!(decode(&remove), Ok((expected, 15)));
            assert_normal(&remove, &normal(&remove));
        }
    }
}

/// Records with fields made up by chance: all that are read are written again.
#[test]
fn any_fields() {
    let mut noise = Noise::new(26);
    for _ in 0..20_000 {
        let kind = 1 + noise.below(10) as u8;
        let (includes, witness) = (noise.below(5) as u8, noise.below(5) as u8);
        let length = match kind {
            1 => 22,
            2 => 8,
            3 | 5 => 37,
            4 => 90 + 33 * usize::from(includes + witness),
            6 => 37 + noise.below(50) as usize,
            7 => 9,
            8 => 4,
            _ => 0,
        };
        let mut fields: Vec<u8> = (0..length).map(|_| noise.below(256) as u8).collect();
        if kind == 4 {
            (fields[80], fields[81]) = (includes, witness);
        }
        let record = record_of(1, kind, &fields);
        assert_normal(&record, &normal(&record));
        assert_recorded(&decode(&record).unwrap().0);
    }
}

/// The cases of document 02's trace player that need no call: what the input is read as.
#[test]
fn cases_of_reading() {
    let reset = || record_of(1, 10, &[]);
    let zeros = |n| vec![0u8; n];
    let cases = [
        (vec![0], Err(BAD)),
        (vec![0, 0, 0, 2, 1, 9], Ok((Call::Gap, 6))),
        (vec![0, 0, 0, 2, 2, 9], Err(UNKNOWN)),
        (vec![0, 0, 0, 2, 1, 11], Err(UNKNOWN)),
        ([vec![0, 0, 0, 39, 1, 11], zeros(37)].concat(), Err(UNKNOWN)),
        (vec![0, 0, 0, 2, 1, 0], Err(UNKNOWN)),
        (vec![0, 0, 0, 3, 1, 9, 0], Err(BAD)),
        (vec![0, 0, 0, 3, 2, 9, 0], Err(UNKNOWN)),
        (vec![0, 0, 0, 4, 2, 9], Err(BAD)),
        (vec![0, 0, 0, 3, 1, 11, 0], Err(UNKNOWN)),
        (vec![0, 0, 0, 1, 1], Err(BAD)),
        (zeros(4), Err(BAD)),
        ([vec![0, 0, 0x10, 1], zeros(4097)].concat(), Err(BAD)),
        (vec![255, 255, 255, 255, 1, 9], Err(BAD)),
    ];
    for (bytes, expected) in cases {
        assert_eq!(decode(&bytes), expected, "{bytes:?}");
        let behind = [reset(), bytes].concat();
        let at = expected.map(|(call, _)| call).map_err(|broken| Broken { at: 6, ..broken });
        assert_eq!(calls(&behind).collect::<Vec<_>>(), [Ok(Call::Reset), at]);
    }
    assert_eq!(calls(&[]).count(), 0);
    // a commit's lists may be of 3 bytes
    let fields = [id_fields(&point(11, 0)).unwrap(), vec![1, 2, 3]].concat();
    assert_eq!(decode(&record_of(1, 6, &fields)), Ok((Call::Commit(point(11, 0), vec![1, 2, 3]), 46)));
}
