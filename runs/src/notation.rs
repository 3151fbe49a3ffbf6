//! Lists in the notation of docs/DIFFERENCES.md.

use std::collections::BTreeMap;

use committer::{Call, Link, PointId, PointInfo, Start, record};

use crate::compare::List;

/// A list, a call to a line; digests are letters in their order. The order is that of the Rust's shuffle.
pub fn written(list: &List) -> String {
    let letters = letters(list);
    let mut text = format!("tables of {} places, order {}\n", list.places, list.order);
    for call in &list.calls {
        text += &Writer { letters: &letters }.call(call);
        text += "\n";
    }
    text
}

/// The records of a list, in hexadecimal. A call that has no record stands in brackets.
pub fn records(list: &List) -> String {
    let letters = letters(list);
    let record = |call| match record::encode(call) {
        Ok(bytes) => hex(&bytes),
        Err(why) => format!("[{}: {why}]", Writer { letters: &letters }.call(call)),
    };
    list.calls.iter().map(record).collect()
}

pub fn hex(bytes: &[u8]) -> String {
    bytes.iter().map(|byte| format!("{byte:02x}")).collect()
}

type Letters = BTreeMap<[u8; 32], String>;

fn letters(list: &List) -> Letters {
    let mut letters: Letters = list.calls.iter().flat_map(digests).map(|digest| (digest, String::new())).collect();
    for (n, letter) in letters.values_mut().enumerate() {
        *letter = nth(n);
    }
    letters
}

/// a to z, then with a number: a2, b2 and so on.
fn nth(n: usize) -> String {
    let letter = char::from(b'a' + (n % 26) as u8);
    match n / 26 {
        0 => letter.to_string(),
        more => format!("{letter}{}", more + 1),
    }
}

fn digests(call: &Call) -> Vec<[u8; 32]> {
    match call {
        Call::Name(id) | Call::Certify(id) | Call::Commit(id, _) | Call::Outlook(id) => vec![id.digest],
        Call::Resolve(id, info) => {
            let links = info.includes.iter().chain(&info.witness).map(|link| link.digest);
            [id.digest, info.top_proof.digest].into_iter().chain(links).collect()
        }
        _ => Vec::new(),
    }
}

struct Writer<'a> {
    letters: &'a Letters,
}

impl Writer<'_> {
    fn call(&self, call: &Call) -> String {
        match call {
            Call::Start(with) => start(with),
            Call::Round { round, peers } => format!("round({round},{})", set(*peers)),
            Call::Name(id) => format!("name({})", self.id(id)),
            Call::Resolve(id, info) => self.resolve(id, info),
            Call::Certify(id) => format!("certify({})", self.id(id)),
            Call::Commit(id, lists) if lists.is_empty() => format!("commit({})", self.id(id)),
            Call::Commit(id, lists) => format!("commit({}, lists {})", self.id(id), numbers(lists)),
            Call::Remove { round, since: None } => format!("remove({round}, none)"),
            Call::Remove { round, since: Some(since) } => format!("remove({round}, since {since})"),
            Call::Drop(round) => format!("drop({round})"),
            Call::Gap => "gap question".into(),
            Call::Reset => "reset".into(),
            Call::Outlook(id) => format!("outlook({})", self.id(id)),
        }
    }

    fn letter(&self, digest: &[u8; 32]) -> &str {
        &self.letters[digest]
    }

    fn id(&self, id: &PointId) -> String {
        format!("{}.{}.{}", id.round, id.author, self.letter(&id.digest))
    }

    fn resolve(&self, id: &PointId, info: &PointInfo) -> String {
        let mut parts = vec![self.id(id), status(info.status)];
        for (set, name) in [(info.proof, "proof"), (info.trigger, "trigger"), (info.cause, "cause")] {
            if set {
                parts.push(name.into());
            }
        }
        parts.push(format!("top {}", self.id(&info.top_proof)));
        if info.evidence != 0 {
            parts.push(format!("evidence {}", set(info.evidence)));
        }
        for (links, name) in [(&info.includes, "includes"), (&info.witness, "witness")] {
            if !links.is_empty() {
                parts.push(format!("{name} {}", self.links(links)));
            }
        }
        if (info.payload_len, info.payload_bytes) != (0, 0) {
            parts.push(format!("payload {} {}", info.payload_len, info.payload_bytes));
        }
        format!("resolve({})", parts.join(", "))
    }

    fn links(&self, links: &[Link]) -> String {
        let texts: Vec<_> = links.iter().map(|link| format!("{}:{}", link.peer, self.letter(&link.digest))).collect();
        texts.join(" ")
    }
}

fn start(with: &Start) -> String {
    let gap = if with.after_gap { "after a gap" } else { "no gap" };
    let used = with.used.map_or("none".into(), |used| used.to_string());
    format!(
        "start(genesis {}, H {}, dedup {}, bottom {}, peers {}, {gap}, used {used})",
        with.genesis,
        with.commit_history_rounds,
        with.deduplicate_rounds,
        with.bottom,
        set(with.peers),
    )
}

fn set(peers: u32) -> String {
    let members: Vec<_> = (0..32).filter(|n| peers >> n & 1 == 1).map(|n| n.to_string()).collect();
    format!("{{{}}}", members.join(","))
}

fn numbers(bytes: &[u8]) -> String {
    bytes.iter().map(u8::to_string).collect::<Vec<_>>().join(" ")
}

fn status(status: u32) -> String {
    match status {
        1 => "valid".into(),
        2 => "trans-invalid".into(),
        3 => "invalid".into(),
        4 => "ill-formed".into(),
        5 => "not found".into(),
        other => format!("status {other}"),
    }
}
