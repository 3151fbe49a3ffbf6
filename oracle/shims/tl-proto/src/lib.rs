//! The names of the binary format; nothing is encoded or decoded.

pub use derives::{TlRead, TlWrite};

pub struct Bare;

#[derive(Debug)]
pub struct TlError;

impl std::fmt::Display for TlError {
    fn fmt(&self, f: &mut std::fmt::Formatter<'_>) -> std::fmt::Result {
        f.write_str("TlError")
    }
}

pub type TlResult<T> = Result<T, TlError>;

pub trait TlRead<'a>: Sized {
    type Repr;
    fn read_from(packet: &mut &'a [u8]) -> TlResult<Self>;
}

impl<'a, const N: usize> TlRead<'a> for &'a [u8; N] {
    type Repr = Bare;
    fn read_from(packet: &mut &'a [u8]) -> TlResult<Self> {
        let (head, rest) = packet.split_first_chunk().ok_or(TlError)?;
        *packet = rest;
        Ok(head)
    }
}
