pub mod commit;
pub mod dag_location;
pub mod dag_point_future;
pub mod dag_round;
pub mod reasons;
pub mod threshold;
pub mod wave;

pub use commit::{Committer, HistoryConflict};
pub use dag_round::DagRound;
pub use reasons::{IllFormedReason, InvalidDependency, InvalidReason};
