//! A commit made again on copies: with buffers that are too small, and with place lists that are damaged or longer. The Rust has neither
//! buffers nor lists.

use committer::{Anchor, Committer, LINK_BYTES, PointId, Refusal, Refused};
use oracle::PlaceLists;

use crate::compare::in_a_row;
use crate::library::{LARGE, UNTOUCHED, records};

/// Of the two sums at the end of a record.
const SUMS: usize = 16;

/// A commit that wrote records, or none, with the lists of its anchors.
pub struct Commit<'a> {
    trigger: &'a PointId,
    lists: Vec<u8>,
    /// where each anchor's lists begin, and where the last one's end
    begins: Vec<usize>,
    before: &'a Committer,
    after: &'a Committer,
    /// what it answers, with a buffer that is large enough
    whole: Result<u32, Refused>,
    large: Vec<u8>,
    records: Vec<Anchor>,
}

impl<'a> Commit<'a> {
    pub fn new(trigger: &'a PointId, lists: &PlaceLists, before: &'a Committer, after: &'a Committer) -> Commit<'a> {
        let mut begins = vec![0];
        begins.extend(lists.iter().scan(0, |end, anchor| {
            *end += anchor.iter().map(Vec::len).sum::<usize>();
            Some(*end)
        }));
        let lists = in_a_row(lists);
        let mut large = vec![UNTOUCHED; LARGE];
        let whole = before.clone().commit(trigger, &lists, &mut large);
        let records = records(&large, finished(&whole));
        Commit { trigger, lists, begins, before, after, whole, large, records }
    }

    /// Where the lists of an anchor begin, or the last one's end.
    fn begin_of_lists(&self, n: usize) -> usize {
        self.begins.get(n).copied().unwrap_or(self.lists.len())
    }

    /// Where the record of an anchor begins, or the last one ends.
    fn begin(&self, n: usize) -> usize {
        self.records[..n].iter().map(Anchor::bytes).sum()
    }

    /// A commit into buffers that end inside each record: 21 with the records before, then the same commit with the lists left writes the
    /// others and leaves what it left at once. Before a refusal it ends likewise.
    pub fn smaller_buffers(&self) -> Result<u64, String> {
        let mut tried = 0;
        for n in 0..self.records.len() {
            let (begin, end) = (self.begin(n), self.begin(n + 1));
            let links = end - SUMS - LINK_BYTES * self.records[n].points.len();
            for length in [begin, begin + 82, links, links + SUMS, end - SUMS, end - 1] {
                let committer = self.cut(n, length)?;
                if n == 0 && committer != *self.before {
                    return Err(format!("a buffer of {length} bytes: refused with 0 anchors, and something changed"));
                }
                self.rest(n, committer).map_err(|text| format!("after a buffer of {length} bytes: {text}"))?;
                tried += 1;
            }
        }
        self.exact_buffer()?;
        Ok(tried)
    }

    /// What a commit into a buffer of so many bytes leaves, which end inside the record of an anchor or before it.
    fn cut(&self, n: usize, length: usize) -> Result<Committer, String> {
        let mut buffer = vec![UNTOUCHED; length];
        let mut committer = self.before.clone();
        let cut = committer.commit(self.trigger, &self.lists, &mut buffer);
        let refused = Refused { refusal: Refusal::NoRoom, finished: n as u32 };
        if cut != Err(refused) {
            return Err(format!("a buffer of {length} bytes: {cut:?}, due {refused:?}"));
        }
        let begin = self.begin(n);
        if buffer[..begin] != self.large[..begin] || buffer[begin..].iter().any(|byte| *byte != UNTOUCHED) {
            return Err(format!("a buffer of {length} bytes holds other bytes than the records before"));
        }
        Ok(committer)
    }

    /// The same commit after so many anchors.
    fn rest(&self, n: usize, mut committer: Committer) -> Result<(), String> {
        let begin = self.begin(n);
        let mut rest = vec![UNTOUCHED; LARGE];
        let again = committer.commit(self.trigger, &self.lists[self.begin_of_lists(n)..], &mut rest);
        let n = n as u32;
        let due = self.whole.map(|count| count - n).map_err(|why| Refused { finished: why.finished - n, ..why });
        if again != due || rest[..LARGE - begin] != self.large[begin..] || committer != *self.after {
            return Err(format!("{again:?}, due {due:?}, or other records or tables"));
        }
        Ok(())
    }

    /// A buffer of the records' length is enough.
    fn exact_buffer(&self) -> Result<(), String> {
        let length = self.begin(self.records.len());
        let mut buffer = vec![UNTOUCHED; length];
        let mut committer = self.before.clone();
        let given = committer.commit(self.trigger, &self.lists, &mut buffer);
        if given != self.whole {
            return Err(format!("a buffer of just {length} bytes: {given:?}, due {:?}", self.whole));
        }
        if buffer != self.large[..length] || committer != *self.after {
            return Err(format!("a buffer of just {length} bytes: other records or tables"));
        }
        Ok(())
    }

    /// Each list damaged in three ways: 24 with the anchors before, and nothing else changed; without an anchor's lists likewise where the
    /// buffer has no room for it. What is behind the lists changes nothing, nor do those of an anchor that is refused before they are read.
    pub fn damaged_lists(&self, lists: &PlaceLists) -> Result<u64, String> {
        let mut tried = 0;
        for n in 0..self.records.len() {
            let left = if n == 0 { self.before.clone() } else { self.cut(n, self.begin(n))? };
            let mut begin = self.begin_of_lists(n);
            self.refused(n, &left, &self.lists[..begin], self.begin(n))?;
            tried += 1;
            for count in lists.get(n).into_iter().flatten().map(Vec::len) {
                for damaged in damaged(&self.lists, begin, count) {
                    self.refused(n, &left, &damaged, LARGE)?;
                    tried += 1;
                }
                begin += count;
            }
        }
        self.unread()?;
        Ok(tried)
    }

    /// 24 after so many anchors, which leave this, into a buffer of so many bytes.
    fn refused(&self, n: usize, left: &Committer, lists: &[u8], length: usize) -> Result<(), String> {
        let mut buffer = vec![UNTOUCHED; length];
        let mut committer = self.before.clone();
        let given = committer.commit(self.trigger, lists, &mut buffer);
        let due = Refused { refusal: Refusal::BadLists, finished: n as u32 };
        let begin = self.begin(n);
        let records = buffer[..begin] == self.large[..begin] && buffer[begin..].iter().all(|byte| *byte == UNTOUCHED);
        if given != Err(due) || !records || committer != *left {
            return Err(format!("lists {lists:?}: {given:?}, due {due:?}, or other records or tables"));
        }
        Ok(())
    }

    fn unread(&self) -> Result<(), String> {
        if self.whole.is_err_and(|why| why.refusal == Refusal::BadLists) {
            return Ok(());
        }
        let mut lists = self.lists[..self.begin_of_lists(self.records.len())].to_vec();
        lists.extend([0xff; 3]);
        let mut buffer = vec![UNTOUCHED; LARGE];
        let mut committer = self.before.clone();
        let given = committer.commit(self.trigger, &lists, &mut buffer);
        if given != self.whole || buffer != self.large || committer != *self.after {
            return Err(format!("bytes behind the lists: {given:?}, due {:?}, or other records or tables", self.whole));
        }
        Ok(())
    }
}

fn finished(answer: &Result<u32, Refused>) -> u32 {
    answer.unwrap_or_else(|why| why.finished)
}

/// The lists with the one from here on damaged: a byte that isn't below its count, a place twice, a byte too few.
fn damaged(lists: &[u8], begin: usize, count: usize) -> Vec<Vec<u8>> {
    if count == 0 {
        return Vec::new();
    }
    let changed = |at: usize, byte: u8| {
        let mut lists = lists.to_vec();
        lists[at] = byte;
        lists
    };
    let last = begin + count - 1;
    let mut damaged = vec![changed(begin + count / 2, count as u8), lists[..last].to_vec()];
    if count > 1 {
        damaged.push(changed(last, lists[begin]));
    }
    damaged
}
