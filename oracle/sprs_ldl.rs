//! Stand-in for what the carried text calls of sprs_ldl: LDL' in natural order, from the lower triangle, made anew each time.
use crate::ndarray::{Array1, Array2};
use crate::ndarray_linalg::LinalgError;
use crate::sprs::{CsMat, SymmetryCheck};
use std::marker::PhantomData;

/// L below the diagonal of f and d on it, row by row; nothing above it is written.
/// A pivot that is zero, or not finite, ends it and is not written.
pub fn factor(a: &Array2<f64>, f: &mut Array2<f64>) -> Result<(), LinalgError> {
    for i in 0..a.nrows() {
        for j in 0..i {
            let mut s = 0.0;
            for k in 0..j {
                s = s + (f[[i, k]] * f[[j, k]]) * f[[k, k]];
            }
            f[[i, j]] = (a[[i, j]] - s) / f[[j, j]];
        }
        let mut s = 0.0;
        for k in 0..i {
            s = s + (f[[i, k]] * f[[i, k]]) * f[[k, k]];
        }
        let pivot = a[[i, i]] - s;
        if pivot == 0.0 || !pivot.is_finite() {
            return Err(LinalgError(i));
        }
        f[[i, i]] = pivot;
    }
    Ok(())
}

/// L forwards (its diagonal is 1), each entry divided by its d, L' backwards.
pub fn solve(f: &Array2<f64>, b: &Array1<f64>) -> Array1<f64> {
    let size = f.nrows();
    let mut x = b.clone();
    for i in 0..size {
        let mut s = 0.0;
        for k in 0..i {
            s = s + f[[i, k]] * x[k];
        }
        x[i] = x[i] - s;
    }
    for i in 0..size {
        x[i] = x[i] / f[[i, i]];
    }
    for i in (0..size).rev() {
        let mut s = 0.0;
        for k in i + 1..size {
            s = s + f[[k, i]] * x[k];
        }
        x[i] = x[i] - s;
    }
    x
}

pub struct Ldl;

pub struct LdlNumeric<N, I> {
    factor: Array2<N>,
    d: Vec<N>,
    index: PhantomData<I>,
}

impl Ldl {
    pub fn new() -> Self {
        Ldl
    }

    pub fn check_symmetry(self, _check: SymmetryCheck) -> Self {
        self
    }

    pub fn numeric(self, a: &CsMat<f64>) -> Result<LdlNumeric<f64, usize>, LinalgError> {
        let size = a.rows();
        let mut made = LdlNumeric { factor: Array2::zeros((size, size)), d: vec![0.0; size], index: PhantomData };
        made.update(a)?;
        Ok(made)
    }
}

impl LdlNumeric<f64, usize> {
    pub fn update(&mut self, a: &CsMat<f64>) -> Result<(), LinalgError> {
        factor(&a.to_dense(), &mut self.factor)?;
        for i in 0..self.d.len() {
            self.d[i] = self.factor[[i, i]];
        }
        Ok(())
    }

    pub fn d(&self) -> &[f64] {
        &self.d
    }

    pub fn solve(&self, right: Vec<f64>) -> Vec<f64> {
        solve(&self.factor, &Array1::from_vec(right)).to_vec()
    }
}
