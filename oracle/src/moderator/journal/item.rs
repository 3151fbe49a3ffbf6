//! Stand-in: what the journal would do with an event.

pub enum JournalAction {
    StoreAndCheckBan,
    Ignore,
}
