//! `Digest::new` names `hash`; digests are given from outside, so nothing calls it.

pub fn hash(_: &[u8]) -> [u8; 32] {
    unimplemented!("digests are given, not computed")
}
