//! Stand-in for the log crate: nothing is logged, and what would be logged is not computed.
macro_rules! debug {
    ($($what:tt)*) => {};
}
macro_rules! warn_ {
    ($($what:tt)*) => {};
}
pub(crate) use debug;
pub(crate) use warn_ as warn;
