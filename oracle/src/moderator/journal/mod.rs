pub mod event;
pub mod item;
