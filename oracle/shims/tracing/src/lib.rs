//! Spans and events that do nothing; their fields aren't evaluated.

pub struct Span;
pub struct Entered;

impl Span {
    pub fn entered(self) -> Entered {
        Entered
    }
    pub fn enter(&self) -> Entered {
        Entered
    }
}

#[macro_export]
macro_rules! error_span {
    ($($tokens:tt)*) => {
        $crate::Span
    };
}

#[macro_export]
macro_rules! error {
    ($($tokens:tt)*) => {
        ()
    };
}
