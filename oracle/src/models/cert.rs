// Added: std's `assert_ne!` with a reader of the certificate word beside it. The word is private to the inline module
// `inner`, and `assert_ne!` is called once in there (in `set_committed`), so this is where a reader can be put without
// a change of the file.
macro_rules! assert_ne {
    ($($tokens:tt)*) => {
        impl CertInner {
            pub fn read_word(&self) -> u16 {
                self.height.load(atomic::Ordering::Relaxed)
            }
        }
        ::std::assert_ne!($($tokens)*);
    };
}

// Unchanged.
include!(concat!(env!("TYCHO_CONSENSUS"), "/models/cert.rs"));

impl Cert {
    pub fn read_word(&self) -> u16 {
        self.0.read_word()
    }
}
