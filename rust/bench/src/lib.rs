//! What the verified library is measured against, and how.

pub mod baseline;
pub mod measure;
