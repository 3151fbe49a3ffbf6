//! Stand-in: nothing is stored.

#[derive(Clone)]
pub struct MempoolStore;
