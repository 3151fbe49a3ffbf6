//! The traits that the sources implement; nothing is serialized.

pub use derives::Serialize;

pub trait Serializer {
    type Ok;
    type Error;
}

pub trait Serialize {
    fn serialize<S: Serializer>(&self, serializer: S) -> Result<S::Ok, S::Error>;
}
