//! Stand-in: any number of peers up to 255; document 01 sets no lower bound.

#[derive(Clone, Copy)]
pub struct PeerCount(u8);

impl PeerCount {
    pub const GENESIS: Self = Self(0);
    pub const MAX: Self = Self(u8::MAX);

    pub const fn full(self) -> usize {
        self.0 as usize
    }
}

impl TryFrom<usize> for PeerCount {
    type Error = std::num::TryFromIntError;
    fn try_from(peers: usize) -> Result<Self, Self::Error> {
        u8::try_from(peers).map(Self)
    }
}
