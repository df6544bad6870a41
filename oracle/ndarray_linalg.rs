//! Stand-in for what the carried text calls of ndarray_linalg: Cholesky, substitution and inverses as document 01 has them.
use crate::elementary::Elementary;
use crate::ndarray::{Array1, Array2};
use crate::sprs_ldl;
use std::ops::Index;

/// The place of the pivot that failed.
#[derive(Debug, Clone, Copy, PartialEq)]
pub struct LinalgError(pub usize);

pub enum UPLO {
    Lower,
}

/// A lower Cholesky factor, +0.0 above the diagonal.
#[derive(Debug, Clone)]
pub struct Lower(pub Array2<f64>);

/// The transpose of a lower factor, to be solved with.
pub struct Upper<'a>(&'a Array2<f64>);

pub trait Cholesky {
    fn cholesky(&self, uplo: UPLO) -> Result<Lower, LinalgError>;
}

pub trait Inverse {
    fn inv(&self) -> Result<Array2<f64>, LinalgError>;
}

pub trait Solve {
    fn solve(&self, right: &Array1<f64>) -> Result<Array1<f64>, LinalgError>;
}

/// L over the lower triangle, row by row; what is above the diagonal is neither read nor written.
/// A pivot that is not above zero, or not finite, ends it and stays as it was.
pub fn cholesky_in_place(f: &mut Array2<f64>) -> Result<(), LinalgError> {
    for i in 0..f.nrows() {
        for j in 0..i {
            let mut s = 0.0;
            for k in 0..j {
                s = s + f[[i, k]] * f[[j, k]];
            }
            f[[i, j]] = (f[[i, j]] - s) / f[[j, j]];
        }
        let mut s = 0.0;
        for k in 0..i {
            s = s + f[[i, k]] * f[[i, k]];
        }
        let pivot = f[[i, i]] - s;
        if !(pivot > 0.0) || !pivot.is_finite() {
            return Err(LinalgError(i));
        }
        f[[i, i]] = pivot.glmm_sqrt();
    }
    Ok(())
}

/// L x = b: the right side less its sum, then divided by the diagonal.
pub fn forward(l: &Array2<f64>, b: &Array1<f64>) -> Array1<f64> {
    let mut x = b.clone();
    for i in 0..l.nrows() {
        let mut s = 0.0;
        for k in 0..i {
            s = s + l[[i, k]] * x[k];
        }
        x[i] = (b[i] - s) / l[[i, i]];
    }
    x
}

/// L' x = b.
pub fn backward(l: &Array2<f64>, b: &Array1<f64>) -> Array1<f64> {
    let mut x = b.clone();
    for i in (0..l.nrows()).rev() {
        let mut s = 0.0;
        for k in i + 1..l.nrows() {
            s = s + l[[k, i]] * x[k];
        }
        x[i] = (b[i] - s) / l[[i, i]];
    }
    x
}

/// The matrix whose column c is the solution for column c of I.
pub fn by_columns(size: usize, solve: impl Fn(&Array1<f64>) -> Array1<f64>) -> Array2<f64> {
    let mut inverse = Array2::zeros((size, size));
    for c in 0..size {
        let mut unit = Array1::zeros(size);
        unit[c] = 1.0;
        let column = solve(&unit);
        for i in 0..size {
            inverse[[i, c]] = column[i];
        }
    }
    inverse
}

impl Cholesky for Array2<f64> {
    fn cholesky(&self, _uplo: UPLO) -> Result<Lower, LinalgError> {
        let mut f = Array2::zeros(self.dim());
        for i in 0..self.nrows() {
            for j in 0..i + 1 {
                f[[i, j]] = self[[i, j]];
            }
        }
        cholesky_in_place(&mut f)?;
        Ok(Lower(f))
    }
}

/// A block of A, or A whole: through LDL'.
impl Inverse for Array2<f64> {
    fn inv(&self) -> Result<Array2<f64>, LinalgError> {
        let mut f = Array2::zeros(self.dim());
        sprs_ldl::factor(self, &mut f)?;
        Ok(by_columns(self.nrows(), |unit| sprs_ldl::solve(&f, unit)))
    }
}

/// The normal matrix's factor: never fails.
impl Inverse for Lower {
    fn inv(&self) -> Result<Array2<f64>, LinalgError> {
        Ok(by_columns(self.0.nrows(), |unit| forward(&self.0, unit)))
    }
}

impl Solve for Lower {
    fn solve(&self, right: &Array1<f64>) -> Result<Array1<f64>, LinalgError> {
        Ok(forward(&self.0, right))
    }
}

impl Solve for Upper<'_> {
    fn solve(&self, right: &Array1<f64>) -> Result<Array1<f64>, LinalgError> {
        Ok(backward(self.0, right))
    }
}

impl Lower {
    pub fn t(&self) -> Upper<'_> {
        Upper(&self.0)
    }
}

impl Index<[usize; 2]> for Lower {
    type Output = f64;
    fn index(&self, at: [usize; 2]) -> &f64 {
        &self.0[at]
    }
}
