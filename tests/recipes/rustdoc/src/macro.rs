//!
//! `$x$` for $5
/// A macro
#[macro_export]
macro_rules! m { ($a:expr, $b:expr) => {} }
