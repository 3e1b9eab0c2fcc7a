//! Stand-in for `serde`: the name `Serialize` and nothing behind it. The passes never serialize.

pub use serde_derive::Serialize;
