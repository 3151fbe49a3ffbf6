//! `PeerId`: 32 bytes, ordered as bytes.

use tycho_crypto::ed25519::PublicKey;

#[derive(Clone, Copy, PartialEq, Eq, PartialOrd, Ord, Hash, Debug)]
pub struct PeerId(pub [u8; 32]);

impl PeerId {
    pub const MAX_TL_BYTES: usize = 32;

    pub fn as_bytes(&self) -> &[u8; 32] {
        &self.0
    }

    pub fn as_public_key(&self) -> Option<PublicKey> {
        unimplemented!("nothing is verified")
    }
}

impl PartialEq<&PeerId> for PeerId {
    fn eq(&self, other: &&PeerId) -> bool {
        self == *other
    }
}
