//! What the programs that take times share.

pub mod nets;
pub mod plain;
pub mod shapes;
pub mod timing;
