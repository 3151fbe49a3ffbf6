pub mod cert;
pub mod dag_point;
pub mod output;
pub mod peer_count;
pub mod point;
pub mod point_status;
pub mod stats;

pub use cert::*;
pub use dag_point::*;
pub use output::*;
pub use peer_count::*;
pub use point::*;
pub use stats::*;
