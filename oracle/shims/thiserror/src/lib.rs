pub use derives::Error;
