//! The generator that is handed to `shuffle`: not PCG's, but that of the shim `rand`.

use rand::Draws;

pub struct Pcg64(Draws);

impl rand::SeedableRng for Pcg64 {
    type Seed = [u8; 32];
    fn from_seed(seed: [u8; 32]) -> Self {
        Self(Draws::from_seed(seed))
    }
}

impl AsMut<Draws> for Pcg64 {
    fn as_mut(&mut self) -> &mut Draws {
        &mut self.0
    }
}
