pub mod journal;

pub use journal::event::JournalDagEvent;

/// Stand-in: the tags that the sources name.
pub enum EventTag {
    BadQuery,
    QueryLimitReached,
    PointIntegrityError,
    ReplacedPoint,
    ForkedPoint,
    EvidenceNoInclusion,
    IllFormedPoint,
    InvalidPoint,
}
