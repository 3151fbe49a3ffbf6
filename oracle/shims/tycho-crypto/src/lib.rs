//! Keys that neither sign nor verify: signatures are empty and nothing checks them.

pub mod ed25519 {
    pub struct KeyPair;
    pub struct PublicKey;

    impl KeyPair {
        pub fn sign_raw(&self, _: &[u8]) -> [u8; 64] {
            unimplemented!("nothing is signed")
        }
    }

    impl PublicKey {
        pub fn verify_raw(&self, _: &[u8], _: &[u8; 64]) -> bool {
            unimplemented!("nothing is verified")
        }
    }
}
