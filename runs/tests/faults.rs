//! The harness finds faults: a side with one wrong height, flag, answer, refusal, word, link, sum, pair of commits, counter, event or entry of the
//! memory is caught, and the list that shows it is short.

use std::cmp::Reverse;
use std::marker::PhantomData;

use committer::{
    Anchor, Call, JournalDagEvent, LOOK_BYTES, LinkBehind, Look, OUTLOOK_BYTES_MAX, PointId, Removal, Word,
};
use runs::behind::{Linkers, link};
use runs::compare::{Difference, Kind, List, compare, lent};
use runs::counts::Counts;
use runs::library::{Library, Made, Side};
use runs::lists::{chained, commit, grown, point, removing, tower, tower_point};
use runs::notation;
use runs::outlook::{Compared, handed_as_told, refused_as_told};
use runs::random::Random;
use runs::shrink::shrink;
use runs::skipped::Seen;
use runs::view::{Answer, Refused, View};

/// What is wrong with a side.
trait Fault {
    fn answer(_call: &Call, _before: &View, answer: Answer) -> Answer {
        answer
    }

    fn view(_view: &mut View) {}

    /// the number of anchors that an outlook tells; what it wrote for these may be changed
    fn outlook(_looks: &[Look], _told: &mut [u8], count: u32) -> u32 {
        count
    }

    /// the lists that a commit is taken to be lent; an outlook has told the first anchor
    fn lists(_first: &Look, _lists: &mut Vec<u8>) {}

    /// what the records of a commit tell of links, changed; the linkers are of all points
    fn links(_records: &mut [Anchor], _linkers: &Linkers) {}

    /// added to the fingerprint after a call with this answer
    fn written(_answer: &Answer) -> u64 {
        0
    }

    /// what commits one after the other on a copy answer and write, changed; the number is added to the copy's fingerprint
    fn in_turn(_made: &mut [Made]) -> u64 {
        0
    }

    /// whether a chain counts as passing a proof
    fn passes(found: bool) -> bool {
        found
    }

    /// what a remove into a buffer of so many bytes answers on a copy
    fn cut(_length: usize, given: Result<(), committer::Refused>) -> Result<(), committer::Refused> {
        given
    }
}

/// The library with a fault.
struct Wrong<F> {
    library: Library,
    /// starts and resolutions
    calls: Vec<Call>,
    written: u64,
    fault: PhantomData<F>,
}

impl<F: Fault> Side for Wrong<F> {
    fn new(places: usize) -> Self {
        Wrong { library: Library::new(places), calls: Vec::new(), written: 0, fault: PhantomData }
    }

    fn call(&mut self, call: &Call) -> Answer {
        let before = self.view();
        let mut answer = F::answer(call, &before, self.library.call(&self.misread(call)));
        if let Answer::Anchors(records) | Answer::Refused(Refused { finished: records, .. }) = &mut answer {
            F::links(records, &Linkers::of(&self.calls.iter().collect::<Vec<_>>()));
        } else if matches!(call, Call::Start(_) | Call::Resolve(..)) {
            self.calls.push(call.clone());
        }
        self.written += F::written(&answer);
        answer
    }

    fn view(&self) -> View {
        let mut view = self.library.view();
        F::view(&mut view);
        view
    }

    fn fingerprint(&self) -> u64 {
        self.library.fingerprint() ^ self.written
    }

    fn outlook(&self, trigger: &PointId, buffer: &mut [u8]) -> Result<u32, committer::Refused> {
        let count = self.library.outlook(trigger, buffer)?;
        let looks = self.library.looks(buffer, count);
        Ok(F::outlook(&looks, buffer, count))
    }

    fn looks(&self, bytes: &[u8], count: u32) -> Vec<Look> {
        self.library.looks(bytes, count)
    }

    fn would_commit(&self, trigger: &PointId, lists: &[u8]) -> Result<Vec<Anchor>, committer::Refused> {
        self.library.would_commit(trigger, lists)
    }

    fn would_commit_in_turn(&self, commits: &[(PointId, Vec<u8>)]) -> (Vec<Made>, u64) {
        let (mut made, fingerprint) = self.library.would_commit_in_turn(commits);
        let written = F::in_turn(&mut made);
        (made, fingerprint ^ written)
    }

    fn passes(found: bool) -> bool {
        F::passes(found)
    }

    fn would_remove(&self, round: u32, since: Option<u32>, buffer: &mut [u8]) -> (Result<(), committer::Refused>, u64) {
        let (given, fingerprint) = self.library.would_remove(round, since, buffer);
        (F::cut(buffer.len(), given), fingerprint ^ self.written)
    }
}

impl<F: Fault> Wrong<F> {
    fn misread(&self, call: &Call) -> Call {
        let mut call = call.clone();
        if let Call::Commit(trigger, lists) = &mut call {
            let mut buffer = vec![0; OUTLOOK_BYTES_MAX];
            let count = self.library.outlook(trigger, &mut buffer).unwrap_or(0);
            if let Some(first) = self.library.looks(&buffer, count.min(1)).first() {
                F::lists(first, lists);
            }
        }
        call
    }
}

fn lists() -> impl Iterator<Item = List> {
    (0..400).map(|n| grown(Random::of(7, 1, n)))
}

/// The shortest list that shows the fault, and its kind.
fn caught<F: Fault>() -> (List, Kind) {
    let (list, found) = lists()
        .find_map(|list| {
            let found = compare::<Wrong<F>>(&list, &mut Counts::default()).err()?;
            Some((list, found))
        })
        .expect("the fault is caught");
    let (short, found) = shrink::<Wrong<F>>(&list, &found);
    assert!(short.calls.len() <= list.calls.len());
    assert_eq!(found.at + 1, short.calls.len(), "the difference shows at the last call");
    (short, found.kind)
}

fn calls<F: Fault>() -> (usize, Kind) {
    let (list, kind) = caught::<F>();
    (list.calls.len(), kind)
}

#[test]
fn the_library_passes() {
    let mut counts = Counts::default();
    for list in lists().take(100) {
        compare::<Library>(&list, &mut counts).unwrap_or_else(|found| panic!("{found}\n{}", notation::written(&list)));
    }
    assert!(counts.points > 10_000 && counts.calls() > 5_000, "{counts}");
}

/// One too high below a top.
struct Height;

impl Fault for Height {
    fn view(view: &mut View) {
        for point in &mut view.points {
            if point.word & 0x8fff > 0 && point.word & 0x8000 == 0 {
                point.word += 1;
            }
        }
    }
}

#[test]
fn a_height_is_caught() {
    // start, round, two names, a resolution with one link, a certificate
    let (list, kind) = caught::<Height>();
    assert_eq!((list.calls.len(), kind), (6, Kind::Points), "{}", notation::written(&list));
    let links: usize = (list.calls.iter())
        .map(|call| match call {
            Call::Resolve(_, info) => info.includes.len() + info.witness.len(),
            _ => 0,
        })
        .sum();
    assert_eq!(links, 1, "{}", notation::written(&list));
}

/// Not set on invalid points.
struct Completed;

impl Fault for Completed {
    fn view(view: &mut View) {
        for point in view.points.iter_mut().filter(|point| point.status == 3) {
            point.word &= !0x2000;
        }
    }
}

#[test]
fn a_flag_is_caught() {
    assert_eq!(calls::<Completed>(), (3, Kind::Points));
}

/// A drop above the top says yes.
struct DropSays;

impl Fault for DropSays {
    fn answer(call: &Call, _: &View, answer: Answer) -> Answer {
        match (call, answer) {
            (Call::Drop(_), Answer::Said(_)) => Answer::Said(true),
            (_, answer) => answer,
        }
    }
}

#[test]
fn an_answer_is_caught() {
    assert_eq!(calls::<DropSays>(), (2, Kind::Answer));
}

/// The gap flag after a drop is past the question.
struct Gap;

impl Fault for Gap {
    fn view(view: &mut View) {
        if let Some(state) = &mut view.state {
            state.emit_first_after_gap = state.emit_first_after_gap.map(|_| true);
        }
    }
}

#[test]
fn a_state_is_caught() {
    let (calls, kind) = calls::<Gap>();
    assert!(calls <= 2, "{calls}");
    assert_eq!(kind, Kind::State);
}

/// The bottom's used mark is lost.
struct Used;

impl Fault for Used {
    fn view(view: &mut View) {
        if let Some(state) = &mut view.state {
            state.rounds[0].used = None;
        }
    }
}

#[test]
fn a_used_mark_is_caught() {
    assert_eq!(calls::<Used>(), (1, Kind::State));
}

fn refused(number: u32) -> Answer {
    Answer::Refused(Refused { number, round: 0, finished: Vec::new() })
}

/// 8 for the fourth digest already. The Rust takes it, as it takes a fifth: only document 01's rule tells.
struct Fourth;

impl Fault for Fourth {
    fn answer(call: &Call, before: &View, answer: Answer) -> Answer {
        let versions = |round, author| {
            before.points.iter().filter(|point| point.id.round == round && point.id.author == author).count()
        };
        match call {
            Call::Name(id) if answer == Answer::Done && versions(id.round, id.author) == 3 => refused(8),
            _ => answer,
        }
    }
}

#[test]
fn a_wrong_refusal_is_caught() {
    assert_eq!(calls::<Fourth>(), (5, Kind::Rule));
}

/// 10 is not given.
struct Twice;

impl Fault for Twice {
    fn answer(_: &Call, _: &View, answer: Answer) -> Answer {
        if answer == refused(10) { Answer::Done } else { answer }
    }
}

#[test]
fn a_missing_refusal_is_caught() {
    assert_eq!(calls::<Twice>(), (4, Kind::Rule));
}

/// An anchor's record names another previous anchor.
struct Previous;

impl Fault for Previous {
    fn answer(_: &Call, _: &View, mut answer: Answer) -> Answer {
        if let Answer::Anchors(anchors) = &mut answer {
            anchors.iter_mut().skip(1).for_each(|anchor| anchor.previous += 1);
        }
        answer
    }
}

/// A point is left out of the second history.
struct History;

impl Fault for History {
    fn answer(_: &Call, _: &View, mut answer: Answer) -> Answer {
        if let Answer::Anchors(anchors) = &mut answer {
            anchors.iter_mut().skip(1).for_each(|anchor| anchor.points.truncate(anchor.points.len() - 1));
        }
        answer
    }
}

/// The round of a conflict is one too high.
struct ConflictRound;

impl Fault for ConflictRound {
    fn answer(_: &Call, _: &View, mut answer: Answer) -> Answer {
        if let Answer::Refused(why) = &mut answer
            && why.number == 13
        {
            why.round += 1;
        }
        answer
    }
}

/// 14 for 18.
struct Number;

impl Fault for Number {
    fn answer(_: &Call, _: &View, mut answer: Answer) -> Answer {
        if let Answer::Refused(why) = &mut answer
            && why.number == 18
        {
            why.number = 14;
        }
        answer
    }
}

/// 14 for a needed point that was never named.
struct NeverNamed;

impl Fault for NeverNamed {
    fn answer(_: &Call, _: &View, answer: Answer) -> Answer {
        if answer == refused(25) { refused(14) } else { answer }
    }
}

/// 25 for one that is named.
struct NamedOnly;

impl Fault for NamedOnly {
    fn answer(_: &Call, _: &View, answer: Answer) -> Answer {
        if answer == refused(14) { refused(25) } else { answer }
    }
}

/// An outlook counts one point too many for its second anchor.
struct Points;

impl Fault for Points {
    fn outlook(looks: &[Look], told: &mut [u8], count: u32) -> u32 {
        if count > 1 {
            told[looks[0].bytes() + LOOK_BYTES - 1] += 1;
        }
        count
    }
}

/// It counts the points of the first anchor for the second too, where the second links to one of them.
struct CountedTwice;

impl Fault for CountedTwice {
    fn outlook(looks: &[Look], told: &mut [u8], count: u32) -> u32 {
        if let [first, second, ..] = looks
            && second.linked.iter().sum::<u32>() > second.points
        {
            let both = (first.points + second.points).to_be_bytes();
            told[first.bytes()..][..LOOK_BYTES][LOOK_BYTES - 4..].copy_from_slice(&both);
        }
        count
    }
}

/// Or one linked point too many in the lowest round.
struct Linked;

impl Fault for Linked {
    fn outlook(looks: &[Look], told: &mut [u8], count: u32) -> u32 {
        if count > 1 {
            told[looks[0].bytes() + looks[1].bytes() - 1] += 1;
        }
        count
    }
}

/// An outlook leaves its last anchor out.
struct LeftOut;

impl Fault for LeftOut {
    fn outlook(_: &[Look], _: &mut [u8], count: u32) -> u32 {
        count.saturating_sub(1)
    }
}

#[test]
fn faults_of_outlooks_are_caught() {
    assert_eq!(found_in_chains::<Points>(), Kind::Outlook);
    assert_eq!(found_in_chains::<CountedTwice>(), Kind::Outlook);
    assert_eq!(found_in_chains::<Linked>(), Kind::Outlook);
    assert_eq!(found_in_chains::<LeftOut>(), Kind::Outlook);
}

/// What an outlook told is asked of the commit after it: anchors, numbers of points, lengths of lists, the refusal.
#[test]
fn a_commit_other_than_told_is_caught() {
    let anchor = Anchor {
        anchor: point(12, 0, 2),
        proof: point(13, 0, 3),
        executable: true,
        previous: 0,
        points: vec![point(11, 0, 1), point(12, 0, 2)],
        links: Vec::new(),
        payload_len: 0,
        payload_bytes: 0,
    };
    let lists = vec![vec![vec![0], vec![0]]];
    let told = |points, linked: &[u32]| Compared::Anchors {
        looks: vec![Look { anchor: point(12, 0, 2), points, linked: linked.to_vec() }],
        buffers: 0,
        shuffled: 0,
    };
    let refused = |number, round| {
        let refusal = committer::Refusal::of(number, round).expect("a number of the table");
        Compared::Refused(committer::Refused { refusal, finished: 0 })
    };
    let anchors = [anchor];
    assert_eq!(handed_as_told(&told(2, &[1, 1]), &anchors, &lists), Ok(()));
    for other in [told(3, &[1, 1]), told(2, &[1, 2]), told(2, &[1]), refused(18, 0)] {
        assert!(handed_as_told(&other, &anchors, &lists).is_err());
    }
    assert!(handed_as_told(&told(2, &[1, 1]), &[], &lists).is_err());
    assert!(handed_as_told(&told(2, &[1, 1]), &anchors, &vec![]).is_err());
    let why = |number, round| Refused { number, round, finished: Vec::new() };
    for number in [20, 21, 24] {
        assert_eq!(refused_as_told(&told(2, &[1, 1]), &why(number, 0)), Ok(()));
        assert_eq!(refused_as_told(&refused(18, 0), &why(number, 0)), Ok(()));
    }
    assert_eq!(refused_as_told(&refused(13, 12), &why(13, 12)), Ok(()));
    assert!(refused_as_told(&refused(13, 12), &why(13, 11)).is_err());
    assert!(refused_as_told(&refused(18, 0), &why(17, 0)).is_err());
    assert!(refused_as_told(&told(2, &[1, 1]), &why(18, 0)).is_err());
}

/// The first list that commits and shows a difference.
fn first_chain<F: Fault>() -> (List, Difference) {
    let lists = (0..400).map(|n| chained(Random::of(7, 5, n)));
    let mut shown = lists.filter_map(|list| {
        let found = compare::<Wrong<F>>(&list, &mut Counts::default()).err()?;
        Some((list, found))
    });
    shown.next().expect("the fault is caught")
}

fn found_in_chains<F: Fault>() -> Kind {
    first_chain::<F>().1.kind
}

#[test]
fn faults_of_commits_are_caught() {
    assert_eq!(found_in_chains::<Previous>(), Kind::Answer);
    assert_eq!(found_in_chains::<History>(), Kind::Records);
    assert_eq!(found_in_chains::<ConflictRound>(), Kind::Refused(13));
    assert_eq!(found_in_chains::<Number>(), Kind::Refused(14));
    assert_eq!(found_in_chains::<NeverNamed>(), Kind::Refused(14));
    assert_eq!(found_in_chains::<NamedOnly>(), Kind::Refused(25));
}

/// Changes the records of a commit that is refused after some, or of one that isn't.
fn records(mut answer: Answer, before_refusal: bool, change: impl Fn(&mut Anchor)) -> Answer {
    match &mut answer {
        Answer::Anchors(anchors) if !before_refusal => anchors.iter_mut().for_each(change),
        Answer::Refused(why) if before_refusal => why.finished.iter_mut().for_each(change),
        _ => {}
    }
    answer
}

/// What the first point of a history holds.
fn first_payload(anchor: &Anchor, view: &View) -> (u64, u64) {
    let first = view.points.iter().find(|point| point.id == anchor.points[0]);
    let (len, bytes) = first.and_then(|point| point.payload).expect("it is resolved");
    (len.into(), bytes.into())
}

/// The sum of the lengths misses the first point of the history.
struct MissedLen;

impl Fault for MissedLen {
    fn answer(_: &Call, before: &View, answer: Answer) -> Answer {
        records(answer, false, |anchor| anchor.payload_len -= first_payload(anchor, before).0)
    }
}

/// The sum of the bytes does.
struct MissedBytes;

impl Fault for MissedBytes {
    fn answer(_: &Call, before: &View, answer: Answer) -> Answer {
        records(answer, false, |anchor| anchor.payload_bytes -= first_payload(anchor, before).1)
    }
}

/// It does in a record that is finished before a refusal, which the Rust loses.
struct MissedBefore;

impl Fault for MissedBefore {
    fn answer(_: &Call, before: &View, answer: Answer) -> Answer {
        records(answer, true, |anchor| anchor.payload_bytes -= first_payload(anchor, before).1)
    }
}

/// A sum has 32 bits.
struct Narrow;

impl Fault for Narrow {
    fn answer(_: &Call, _: &View, answer: Answer) -> Answer {
        records(answer, false, |anchor| anchor.payload_len &= u64::from(u32::MAX))
    }
}

/// A point holds the two numbers exchanged.
struct Exchanged;

impl Fault for Exchanged {
    fn view(view: &mut View) {
        for (len, bytes) in view.points.iter_mut().filter_map(|point| point.payload.as_mut()) {
            std::mem::swap(len, bytes);
        }
    }
}

/// Ill-formed and not found points hold none.
struct Unheld;

impl Fault for Unheld {
    fn view(view: &mut View) {
        view.points.iter_mut().filter(|point| point.status > 3).for_each(|point| point.payload = Some((0, 0)));
    }
}

#[test]
fn faults_of_payloads_are_caught() {
    assert_eq!(found_in_chains::<MissedLen>(), Kind::Answer);
    assert_eq!(found_in_chains::<MissedBytes>(), Kind::Answer);
    assert_eq!(found_in_chains::<MissedBefore>(), Kind::Records);
    assert_eq!(found_in_chains::<Narrow>(), Kind::Answer);
    assert_eq!(calls::<Exchanged>(), (3, Kind::Points));
    assert_eq!(calls::<Unheld>(), (3, Kind::Points));
}

/// Behind each point but the anchor the linker that is picked from those of its record, or from all.
fn picked(records: &mut [Anchor], linkers: &Linkers, outside: bool, pick: impl Fn(&[PointId]) -> Option<PointId>) {
    for record in records {
        for (id, told) in record.points.iter().zip(&mut record.links).filter(|(id, _)| **id != record.anchor) {
            let linkers = linkers.to(id).iter().filter(|by| outside || record.points.contains(by));
            let by = pick(&linkers.copied().collect::<Vec<_>>()).expect("a point of a history has a linker");
            *told = link(by, id);
        }
    }
}

/// Of several linkers the one in the lowest round is told.
struct LowestRound;

impl Fault for LowestRound {
    fn links(records: &mut [Anchor], linkers: &Linkers) {
        picked(records, linkers, false, |own| own.iter().min_by_key(|by| (by.round, by.digest)).copied());
    }
}

/// Of several in a round the one with the greatest digest is.
struct GreatestDigest;

impl Fault for GreatestDigest {
    fn links(records: &mut [Anchor], linkers: &Linkers) {
        picked(records, linkers, false, |own| own.iter().max_by_key(|by| (by.round, by.digest)).copied());
    }
}

/// Points outside the record count as linkers.
struct AnyLinker;

impl Fault for AnyLinker {
    fn links(records: &mut [Anchor], linkers: &Linkers) {
        picked(records, linkers, true, |all| all.iter().min_by_key(|by| (Reverse(by.round), by.digest)).copied());
    }
}

/// The words are exchanged.
struct OtherWord;

impl OtherWord {
    fn exchange(anchor: &mut Anchor) {
        for told in &mut anchor.links {
            told.word = match told.word {
                Word::Includes => Word::Witness,
                Word::Witness => Word::Includes,
                Word::Anchor => Word::Anchor,
            };
        }
    }
}

impl Fault for OtherWord {
    fn answer(_: &Call, _: &View, answer: Answer) -> Answer {
        records(answer, false, OtherWord::exchange)
    }
}

/// They are in a record that is finished before a refusal, which the Rust loses.
struct OtherWordBefore;

impl Fault for OtherWordBefore {
    fn answer(_: &Call, _: &View, answer: Answer) -> Answer {
        records(answer, true, OtherWord::exchange)
    }
}

/// Behind the first point of a record that has others stands the anchor of the record before.
struct EarlierRecord;

impl Fault for EarlierRecord {
    fn links(records: &mut [Anchor], _: &Linkers) {
        for n in 1..records.len() {
            let by = records[n - 1].anchor;
            if let [first, _, ..] = &mut records[n].links[..] {
                first.by = by;
            }
        }
    }
}

/// The anchor stands with its proof.
struct ByProof;

impl Fault for ByProof {
    fn answer(_: &Call, _: &View, answer: Answer) -> Answer {
        records(answer, false, |anchor| anchor.links.last_mut().expect("the anchor's").by = anchor.proof)
    }
}

/// The links stand by rising digest in their round, whatever the order of the ids.
struct InOtherOrder;

impl Fault for InOtherOrder {
    fn answer(_: &Call, _: &View, answer: Answer) -> Answer {
        records(answer, false, |anchor| {
            let mut pairs: Vec<(&PointId, LinkBehind)> =
                anchor.points.iter().zip(anchor.links.iter().copied()).collect();
            pairs.sort_by_key(|(id, _)| (id.round, id.digest));
            anchor.links = pairs.into_iter().map(|(_, told)| told).collect();
        })
    }
}

/// The last link is missing.
struct LostLink;

impl Fault for LostLink {
    fn answer(_: &Call, _: &View, answer: Answer) -> Answer {
        records(answer, false, |anchor| anchor.links.truncate(anchor.points.len() - 1))
    }
}

/// A record ends with its sums behind the ids.
struct NoLinks;

impl Fault for NoLinks {
    fn answer(_: &Call, _: &View, answer: Answer) -> Answer {
        records(answer, false, |anchor| anchor.links.clear())
    }
}

#[test]
fn faults_of_links_are_caught() {
    assert_eq!(found_in_chains::<LowestRound>(), Kind::Links);
    assert_eq!(found_in_chains::<GreatestDigest>(), Kind::Links);
    assert_eq!(found_in_chains::<AnyLinker>(), Kind::Links);
    assert_eq!(found_in_chains::<OtherWord>(), Kind::Links);
    assert_eq!(found_in_chains::<OtherWordBefore>(), Kind::Links);
    assert_eq!(found_in_chains::<EarlierRecord>(), Kind::Links);
    assert_eq!(found_in_chains::<ByProof>(), Kind::Links);
    assert_eq!(found_in_chains::<InOtherOrder>(), Kind::Links);
    assert_eq!(found_in_chains::<LostLink>(), Kind::Links);
    assert_eq!(found_in_chains::<NoLinks>(), Kind::Links);
}

/// The shortest list that shows the fault of a commit.
fn shortest_chain<F: Fault>() -> (List, Difference) {
    let (list, found) = first_chain::<F>();
    shrink::<Wrong<F>>(&list, &found)
}

/// How many points it resolves.
fn points_of_shortest<F: Fault>() -> usize {
    shortest_chain::<F>().0.calls.iter().filter(|call| matches!(call, Call::Resolve(..))).count()
}

/// Beside anchor, proof and trigger: a point with a witness of the anchor and an include between them; one with two includes.
#[test]
fn faults_of_links_are_shown_by_short_lists() {
    assert_eq!(points_of_shortest::<LowestRound>(), 3 + 2);
    assert_eq!(points_of_shortest::<GreatestDigest>(), 3 + 3);
}

/// Each list of the first anchor.
fn each_list(first: &Look, lists: &mut [u8], change: impl Fn(&mut [u8])) {
    let mut rest = lists;
    for count in &first.linked {
        let (list, after) = rest.split_at_mut((*count as usize).min(rest.len()));
        change(list);
        rest = after;
    }
}

/// Byte k is read as the position of rank k.
struct Inverse;

impl Fault for Inverse {
    fn lists(first: &Look, lists: &mut Vec<u8>) {
        each_list(first, lists, |list| {
            let places = list.to_vec();
            (0..).zip(places).for_each(|(position, place)| list[usize::from(place)] = position);
        });
    }
}

/// Points come out in the order of the lists, not in its reverse.
struct Forwards;

impl Fault for Forwards {
    fn lists(first: &Look, lists: &mut Vec<u8>) {
        each_list(first, lists, |list| list.reverse());
    }
}

/// Ranks count new points only, so that an anchor reads as many bytes.
struct NewOnly;

impl Fault for NewOnly {
    fn lists(first: &Look, lists: &mut Vec<u8>) {
        let (new, all) = (first.points as usize, first.linked.iter().sum::<u32>() as usize);
        lists.drain(new.min(lists.len())..all.min(lists.len()));
    }
}

/// The lists are read as if nothing were shuffled.
struct Unread;

impl Fault for Unread {
    fn lists(first: &Look, lists: &mut Vec<u8>) {
        each_list(first, lists, |list| list.sort_unstable());
    }
}

#[test]
fn faults_of_place_lists_are_caught() {
    assert_eq!(found_in_chains::<Inverse>(), Kind::Answer);
    assert_eq!(found_in_chains::<Forwards>(), Kind::Answer);
    assert_eq!(found_in_chains::<NewOnly>(), Kind::Refused(24));
    assert_eq!(found_in_chains::<Unread>(), Kind::Answer);
}

/// Lists of one or two are their own inverse: one of three points is left.
#[test]
fn an_inverse_permutation_needs_three_points() {
    let (short, _) = shortest_chain::<Inverse>();
    let (short, _) = lent::<Wrong<Inverse>>(&short, &mut Counts::default());
    let Some(Call::Commit(_, lists)) = short.calls.last() else {
        panic!("the difference shows at a commit");
    };
    assert!([[0, 1, 2, 0], [0, 2, 0, 1]].contains(&lists[..].try_into().unwrap()), "{}", notation::written(&short));
}

/// The second of two commits in a row, if it hands out anchors.
fn second(made: &mut [Made]) -> Option<&mut Made> {
    made.get_mut(1).filter(|(given, _)| given.is_ok_and(|count| count > 0))
}

/// Its first record says that its anchor isn't executable, or is.
struct OtherBytes;

impl Fault for OtherBytes {
    fn in_turn(made: &mut [Made]) -> u64 {
        if let Some((_, buffer)) = second(made) {
            buffer[EXECUTABLE_AT] ^= 1;
        }
        0
    }
}

/// Behind the ids of anchor and proof.
const EXECUTABLE_AT: usize = 74;

/// It writes the last byte of the buffer.
struct LastByte;

impl Fault for LastByte {
    fn in_turn(made: &mut [Made]) -> u64 {
        if let Some(byte) = second(made).and_then(|(_, buffer)| buffer.last_mut()) {
            *byte = 0;
        }
        0
    }
}

/// A word differs after it.
struct OtherWords;

impl Fault for OtherWords {
    fn in_turn(made: &mut [Made]) -> u64 {
        u64::from(second(made).is_some())
    }
}

/// Every chain counts as passing every proof.
struct AllPass;

impl Fault for AllPass {
    fn passes(_: bool) -> bool {
        true
    }
}

#[test]
fn faults_of_skipped_triggers_are_caught() {
    assert_eq!(found_in_chains::<OtherBytes>(), Kind::Skipped);
    assert_eq!(found_in_chains::<LastByte>(), Kind::Skipped);
    assert_eq!(found_in_chains::<OtherWords>(), Kind::Skipped);
    assert_eq!(found_in_chains::<AllPass>(), Kind::Skipped);
}

/// How many points the shortest list resolves. It ends with the commit of the later trigger, and the difference names the other one.
fn points_of_skipped<F: Fault>() -> usize {
    let (list, found) = shortest_chain::<F>();
    let shown = || format!("{found}\n{}", notation::written(&list));
    let Some(Call::Commit(later, _)) = list.calls.last() else {
        panic!("{}", shown());
    };
    let resolved = list.calls.iter().filter_map(|call| match call {
        Call::Resolve(id, info) => Some((id, info)),
        _ => None,
    });
    let mut others = resolved.clone().filter(|(id, info)| info.trigger && *id != later);
    assert!(others.any(|(id, _)| found.text.contains(&id.text("."))), "{}", shown());
    resolved.count()
}

/// Beside anchor, proof and trigger: a trigger at the bottom, over the proof that the anchor leads to; a point there that isn't passed.
#[test]
fn faults_of_skipped_triggers_are_shown_by_short_lists() {
    assert_eq!(points_of_skipped::<OtherBytes>(), 3 + 1);
    assert_eq!(points_of_skipped::<LastByte>(), 3 + 1);
    assert_eq!(points_of_skipped::<OtherWords>(), 3 + 1);
    assert_eq!(points_of_skipped::<AllPass>(), 3 + 1);
}

/// What the pairs give that are tried before this commit on the tower.
fn pairs_of_tower(sought_by_15: u32, later: u32) -> Seen {
    let mut calls = tower(sought_by_15);
    calls.push(commit(tower_point(later)));
    let mut counts = Counts::default();
    compare::<Library>(&List { places: 7, calls, order: 1 }, &mut counts).unwrap_or_else(|found| panic!("{found}"));
    counts.skipped
}

/// Before 17 are 13 and 15. Where the top proof of 15 is in round 10, their proofs aren't passed, and their anchors aren't among those of 17 alone.
/// Before 15 are 13, itself, which is drawn there and yields nothing twice, and 17, which is above it and isn't passed.
#[test]
fn pairs_that_are_passed_and_not() {
    let none = Seen::default();
    assert_eq!(pairs_of_tower(14, 17), Seen { pairs: 2, passed: [2, 2, 2], ..none });
    assert_eq!(pairs_of_tower(10, 17), Seen { pairs: 2, others: [2, 2, 2], ..none });
    assert_eq!(pairs_of_tower(14, 15), Seen { pairs: 3, passed: [2, 2, 1], others: [1, 1, 1], ..none });
}

/// Changes what a remove reports.
fn reported(mut answer: Answer, change: impl Fn(&mut Removal)) -> Answer {
    if let Answer::Removed(told) = &mut answer {
        change(told);
    }
    answer
}

/// A counter is one too high.
struct Counter;

impl Fault for Counter {
    fn answer(_: &Call, _: &View, answer: Answer) -> Answer {
        reported(answer, |told| told.peers.iter_mut().for_each(|peer| peer.counters.references_skipped += 1))
    }
}

/// The score of a peer with two forks is that of one.
struct Score;

impl Fault for Score {
    fn answer(_: &Call, _: &View, answer: Answer) -> Answer {
        let lower = |told: &mut Removal| {
            told.peers.iter_mut().filter(|peer| peer.counters.equivocated > 1).for_each(|peer| peer.score -= 20);
        };
        reported(answer, lower)
    }
}

/// A peer's first round is the one above.
struct FirstRound;

impl Fault for FirstRound {
    fn answer(_: &Call, _: &View, answer: Answer) -> Answer {
        reported(answer, |told| told.peers.iter_mut().for_each(|peer| peer.first_round += 1))
    }
}

/// An event is left out.
struct LostEvent;

impl Fault for LostEvent {
    fn answer(_: &Call, _: &View, answer: Answer) -> Answer {
        reported(answer, |told| told.events.retain(|event| event.kind() != 3))
    }
}

/// Another digest than the fork's.
struct ForkDigest;

impl Fault for ForkDigest {
    fn answer(_: &Call, _: &View, answer: Answer) -> Answer {
        let change = |told: &mut Removal| {
            for event in &mut told.events {
                if let JournalDagEvent::Equivocated { digests, .. } = event {
                    digests[1][31] ^= 1;
                }
            }
        };
        reported(answer, change)
    }
}

/// Of two proofs of one previous point a lesser one is reported: what entry 8 lets the Rust do.
struct LesserProof;

impl Fault for LesserProof {
    fn answer(_: &Call, before: &View, answer: Answer) -> Answer {
        let change = |told: &mut Removal| {
            for event in &mut told.events {
                if let JournalDagEvent::EvidenceNoInclusion { signer, proofs, .. } = event {
                    let first = proofs.first().copied();
                    let mut signed = before.memory.peers.get(signer).into_iter().flat_map(|peer| peer.signed.values());
                    if let Some(others) = signed.find(|others| others.len() > 1 && others.last().copied() == first) {
                        proofs[0] = others[0];
                    }
                }
            }
        };
        reported(answer, change)
    }
}

/// Blamed are the points of the upper round alone.
struct Blamed;

impl Fault for Blamed {
    fn answer(_: &Call, _: &View, answer: Answer) -> Answer {
        let change = |told: &mut Removal| {
            for event in &mut told.events {
                if let JournalDagEvent::EvidenceNoInclusion { blamed, .. } = event {
                    blamed.remove(0);
                }
            }
        };
        reported(answer, change)
    }
}

/// The memory is of the round above.
struct LastRound;

impl Fault for LastRound {
    fn view(view: &mut View) {
        if view.memory.last > 0 {
            view.memory.last += 1;
        }
    }
}

/// A digest that a peer owes isn't remembered.
struct Owed;

impl Fault for Owed {
    fn view(view: &mut View) {
        for peer in view.memory.peers.values_mut() {
            peer.signed.pop_first();
        }
        view.memory.peers.retain(|_, peer| !peer.authored.is_empty() || !peer.signed.is_empty());
    }
}

/// 23 isn't given for the round above the last anchor.
struct Ahead;

impl Fault for Ahead {
    fn answer(_: &Call, _: &View, answer: Answer) -> Answer {
        if answer == refused(23) { Answer::Removed(Removal::default()) } else { answer }
    }
}

/// A buffer of 4 bytes is taken.
struct Cut;

impl Fault for Cut {
    fn cut(length: usize, given: Result<(), committer::Refused>) -> Result<(), committer::Refused> {
        if length == 4 { Ok(()) } else { given }
    }
}

/// The kind of the first difference in lists that remove.
fn found_in_removes<F: Fault>() -> Kind {
    let lists = (0..400).map(|n| removing(Random::of(7, 8, n)));
    let found = lists.into_iter().find_map(|list| compare::<Wrong<F>>(&list, &mut Counts::default()).err());
    found.expect("the fault is caught").kind
}

#[test]
fn faults_of_removes_are_caught() {
    assert_eq!(found_in_removes::<Counter>(), Kind::Answer);
    assert_eq!(found_in_removes::<Score>(), Kind::Answer);
    assert_eq!(found_in_removes::<FirstRound>(), Kind::Answer);
    assert_eq!(found_in_removes::<LostEvent>(), Kind::Answer);
    assert_eq!(found_in_removes::<ForkDigest>(), Kind::Answer);
    assert_eq!(found_in_removes::<LesserProof>(), Kind::Answer);
    assert_eq!(found_in_removes::<Blamed>(), Kind::Answer);
    assert_eq!(found_in_removes::<LastRound>(), Kind::Memory);
    assert_eq!(found_in_removes::<Owed>(), Kind::Memory);
    assert_eq!(found_in_removes::<Ahead>(), Kind::Rule);
    assert_eq!(found_in_removes::<Cut>(), Kind::Buffer);
}

#[test]
fn the_library_passes_removes() {
    let mut counts = Counts::default();
    for list in (0..100).map(|n| removing(Random::of(7, 8, n))) {
        compare::<Library>(&list, &mut counts).unwrap_or_else(|found| panic!("{found}\n{}", notation::written(&list)));
    }
    assert!(counts.removes_taken() > 200 && counts.events.values().sum::<u64>() > 1000, "{counts}");
}

#[test]
fn the_library_passes_chains() {
    let mut counts = Counts::default();
    for list in (0..100).map(|n| chained(Random::of(7, 5, n))) {
        compare::<Library>(&list, &mut counts).unwrap_or_else(|found| panic!("{found}\n{}", notation::written(&list)));
    }
    assert!(counts.anchors > 100 && counts.outlooks_with_anchors() > 100, "{counts}");
    assert!(counts.several_as_told() > 50 && counts.outlooks_shuffled[1] > 50, "{counts}");
    assert!(counts.three_linked > 50 && counts.damaged_lists > 500, "{counts}");
    assert!(counts.sums > 100 && counts.wide_sums > 50, "{counts}");
    assert!(counts.links.named().iter().all(|(_, times)| *times > 50), "{counts}");
    assert!(counts.skipped.passed[2] > 50 && counts.skipped.others[2] > 20, "{counts}");
}

/// A word is written where 9 is given.
struct Writes;

impl Fault for Writes {
    fn written(answer: &Answer) -> u64 {
        u64::from(*answer == refused(9))
    }
}

#[test]
fn a_change_by_a_refused_call_is_caught() {
    assert_eq!(calls::<Writes>(), (2, Kind::Changed));
}
