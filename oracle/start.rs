//! R's start of a binomial fit (document 02, P10), which the Rust does not have: the weights are the numbers of trials.
use crate::ndarray::Array1;

/// (weight y + 0.5) / (weight + 1), as `binomial()$initialize` has it.
pub fn trials_mean(weight: f64, y: f64) -> f64 {
    (weight * y + 0.5) / (weight + 1.0)
}

pub fn trials_means(y: &Array1<f64>, weights: &Array1<f64>) -> Array1<f64> {
    Array1::from_vec((0..y.len()).map(|i| trials_mean(weights[i], y[i])).collect())
}
