//! Stand-in for serde: the two derives, which expand to nothing.
pub use derives::{Deserialize, Serialize};
