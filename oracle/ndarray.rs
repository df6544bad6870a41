//! Stand-in for what the carried text calls of ndarray: plain loops, each sum over ascending index from +0.0,
//! one rounding for each product and each addition.
use std::ops::{Add, AddAssign, Index, IndexMut, Mul, Sub};

#[derive(Debug, Clone, PartialEq)]
pub struct Array1<A> {
    data: Vec<A>,
}

impl<A: Copy> Array1<A> {
    pub fn from_vec(data: Vec<A>) -> Self {
        Array1 { data }
    }

    pub fn to_vec(&self) -> Vec<A> {
        self.data.clone()
    }

    pub fn len(&self) -> usize {
        self.data.len()
    }

    pub fn iter(&self) -> std::slice::Iter<'_, A> {
        self.data.iter()
    }

    pub fn mapv(&self, f: impl Fn(A) -> A) -> Self {
        let mut data = self.data.clone();
        for x in &mut data {
            *x = f(*x);
        }
        Array1 { data }
    }
}

impl Array1<f64> {
    pub fn zeros(n: usize) -> Self {
        Array1 { data: vec![0.0; n] }
    }

    pub fn ones(n: usize) -> Self {
        Array1 { data: vec![1.0; n] }
    }

    pub fn sum(&self) -> f64 {
        let mut s = 0.0;
        for &x in &self.data {
            s = s + x;
        }
        s
    }

    pub fn dot(&self, other: &Array1<f64>) -> f64 {
        assert_eq!(self.len(), other.len());
        let mut s = 0.0;
        for i in 0..self.len() {
            s = s + self.data[i] * other.data[i];
        }
        s
    }
}

impl<A> Index<usize> for Array1<A> {
    type Output = A;
    fn index(&self, i: usize) -> &A {
        &self.data[i]
    }
}

impl<A> IndexMut<usize> for Array1<A> {
    fn index_mut(&mut self, i: usize) -> &mut A {
        &mut self.data[i]
    }
}

impl<'a, A> IntoIterator for &'a Array1<A> {
    type Item = &'a A;
    type IntoIter = std::slice::Iter<'a, A>;
    fn into_iter(self) -> Self::IntoIter {
        self.data.iter()
    }
}

fn entrywise(a: &[f64], b: &[f64], f: impl Fn(f64, f64) -> f64) -> Vec<f64> {
    assert_eq!(a.len(), b.len());
    let mut data = a.to_vec();
    for i in 0..a.len() {
        data[i] = f(data[i], b[i]);
    }
    data
}

impl Add for &Array1<f64> {
    type Output = Array1<f64>;
    fn add(self, other: &Array1<f64>) -> Array1<f64> {
        Array1::from_vec(entrywise(&self.data, &other.data, |x, y| x + y))
    }
}

impl Add for Array1<f64> {
    type Output = Array1<f64>;
    fn add(mut self, other: Array1<f64>) -> Array1<f64> {
        self += &other;
        self
    }
}

impl Sub for &Array1<f64> {
    type Output = Array1<f64>;
    fn sub(self, other: &Array1<f64>) -> Array1<f64> {
        Array1::from_vec(entrywise(&self.data, &other.data, |x, y| x - y))
    }
}

impl Mul for &Array1<f64> {
    type Output = Array1<f64>;
    fn mul(self, other: &Array1<f64>) -> Array1<f64> {
        Array1::from_vec(entrywise(&self.data, &other.data, |x, y| x * y))
    }
}

impl Mul<f64> for Array1<f64> {
    type Output = Array1<f64>;
    fn mul(self, factor: f64) -> Array1<f64> {
        self.mapv(|x| x * factor)
    }
}

impl AddAssign<&Array1<f64>> for Array1<f64> {
    fn add_assign(&mut self, other: &Array1<f64>) {
        assert_eq!(self.len(), other.len());
        for i in 0..other.len() {
            self.data[i] = self.data[i] + other.data[i];
        }
    }
}

/// A matrix, row by row.
#[derive(Debug, Clone, PartialEq)]
pub struct Array2<A> {
    dim: (usize, usize),
    data: Vec<A>,
}

impl Array2<f64> {
    pub fn zeros(dim: (usize, usize)) -> Self {
        Self::filled(dim, 0.0)
    }

    pub fn filled(dim: (usize, usize), x: f64) -> Self {
        Array2 { dim, data: vec![x; dim.0 * dim.1] }
    }

    pub fn from_rows(dim: (usize, usize), data: Vec<f64>) -> Self {
        assert_eq!(data.len(), dim.0 * dim.1);
        Array2 { dim, data }
    }

    pub fn dim(&self) -> (usize, usize) {
        self.dim
    }

    pub fn nrows(&self) -> usize {
        self.dim.0
    }

    pub fn ncols(&self) -> usize {
        self.dim.1
    }

    pub fn t(&self) -> Array2<f64> {
        let mut turned = Array2::zeros((self.dim.1, self.dim.0));
        for i in 0..self.dim.0 {
            for j in 0..self.dim.1 {
                turned[[j, i]] = self[[i, j]];
            }
        }
        turned
    }

    pub fn dot<Rhs>(&self, other: &Rhs) -> Rhs
    where
        Self: Dot<Rhs>,
    {
        Dot::times(self, other)
    }
}

pub trait Dot<Rhs> {
    fn times(&self, other: &Rhs) -> Rhs;
}

impl Dot<Array1<f64>> for Array2<f64> {
    fn times(&self, other: &Array1<f64>) -> Array1<f64> {
        assert_eq!(self.ncols(), other.len());
        let mut product = Array1::zeros(self.nrows());
        for i in 0..self.nrows() {
            let row = &self.data[i * self.ncols()..(i + 1) * self.ncols()];
            let mut s = 0.0;
            for j in 0..row.len() {
                s = s + row[j] * other.data[j];
            }
            product[i] = s;
        }
        product
    }
}

impl Dot<Array2<f64>> for Array2<f64> {
    fn times(&self, other: &Array2<f64>) -> Array2<f64> {
        assert_eq!(self.ncols(), other.nrows());
        let mut product = Array2::zeros((self.nrows(), other.ncols()));
        for a in 0..self.nrows() {
            for b in 0..other.ncols() {
                let mut s = 0.0;
                for i in 0..self.ncols() {
                    s = s + self[[a, i]] * other[[i, b]];
                }
                product[[a, b]] = s;
            }
        }
        product
    }
}

impl Sub for &Array2<f64> {
    type Output = Array2<f64>;
    fn sub(self, other: &Array2<f64>) -> Array2<f64> {
        assert_eq!(self.dim, other.dim);
        Array2 { dim: self.dim, data: entrywise(&self.data, &other.data, |x, y| x - y) }
    }
}

impl<A> Index<[usize; 2]> for Array2<A> {
    type Output = A;
    fn index(&self, at: [usize; 2]) -> &A {
        assert!(at[0] < self.dim.0 && at[1] < self.dim.1);
        &self.data[at[0] * self.dim.1 + at[1]]
    }
}

impl<A> IndexMut<[usize; 2]> for Array2<A> {
    fn index_mut(&mut self, at: [usize; 2]) -> &mut A {
        assert!(at[0] < self.dim.0 && at[1] < self.dim.1);
        &mut self.data[at[0] * self.dim.1 + at[1]]
    }
}
