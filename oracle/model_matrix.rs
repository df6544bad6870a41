//! `ReBlock` of the Rust's model_matrix.rs, as far as the fit asks for it.

/// Captures structural layout and variable indices for a multi-dimensional Random Effect correlation block.
#[derive(Clone, Debug, PartialEq)]
pub struct ReBlock {
    /// The number of unique grouping clusters / levels.
    pub m: usize,
    /// The number of random effect variables per group (e.g., 1 for intercept-only, 2 for intercept+slope).
    pub k: usize,
    /// The number of variance-covariance parameters associated with this block (e.g. k(k+1)/2 ).
    pub theta_len: usize,
    // ALTERED: the names of groups and effects are left out.
}
