//! Stand-in for what the carried text calls of sprs: matrices by rows or by columns, products as plain loops in which each
//! sum runs over ascending index from +0.0. An entry is a place, whatever it holds.
use crate::ndarray::Array2;
use std::collections::BTreeMap;
use std::ops::{Add, Mul};

#[derive(Debug, Clone, Copy, PartialEq)]
enum Storage {
    ByRows,
    ByColumns,
}

/// `starts` has one more number than there are rows (or columns), as in Z' of a job.
#[derive(Debug, Clone)]
pub struct CsMat<N> {
    storage: Storage,
    shape: (usize, usize),
    starts: Vec<usize>,
    inner: Vec<usize>,
    data: Vec<N>,
}

pub enum SymmetryCheck {
    DontCheckSymmetry,
}

pub struct CsVecView<'a> {
    inner: &'a [usize],
    data: &'a [f64],
}

impl<'a> CsVecView<'a> {
    pub fn iter(&self) -> impl Iterator<Item = (usize, &'a f64)> {
        self.inner.iter().copied().zip(self.data.iter())
    }

    pub fn indices(&self) -> &'a [usize] {
        self.inner
    }

    pub fn data(&self) -> &'a [f64] {
        self.data
    }
}

pub struct IndPtr<'a>(&'a [usize]);

impl<'a> IndPtr<'a> {
    pub fn raw_storage(&self) -> &'a [usize] {
        self.0
    }
}

impl CsMat<f64> {
    /// By rows.
    pub fn new(shape: (usize, usize), starts: Vec<usize>, inner: Vec<usize>, data: Vec<f64>) -> Self {
        CsMat { storage: Storage::ByRows, shape, starts, inner, data }
    }

    /// By rows, from each row's entries.
    fn from_rows(shape: (usize, usize), rows: Vec<BTreeMap<usize, f64>>) -> Self {
        let (mut starts, mut inner, mut data) = (vec![0], Vec::new(), Vec::new());
        for row in rows {
            for (column, value) in row {
                inner.push(column);
                data.push(value);
            }
            starts.push(inner.len());
        }
        Self::new(shape, starts, inner, data)
    }

    fn empty_rows(count: usize) -> Vec<BTreeMap<usize, f64>> {
        vec![BTreeMap::new(); count]
    }

    pub fn eye(size: usize) -> Self {
        let mut rows = Self::empty_rows(size);
        for i in 0..size {
            rows[i].insert(i, 1.0);
        }
        Self::from_rows((size, size), rows)
    }

    pub fn rows(&self) -> usize {
        self.shape.0
    }

    pub fn cols(&self) -> usize {
        self.shape.1
    }

    pub fn data(&self) -> &[f64] {
        &self.data
    }

    pub fn data_mut(&mut self) -> &mut [f64] {
        &mut self.data
    }

    pub fn indices(&self) -> &[usize] {
        &self.inner
    }

    pub fn indptr(&self) -> IndPtr<'_> {
        IndPtr(&self.starts)
    }

    pub fn view(&self) -> &Self {
        self
    }

    pub fn outer_view(&self, i: usize) -> Option<CsVecView<'_>> {
        if i + 1 >= self.starts.len() {
            return None;
        }
        let (from, to) = (self.starts[i], self.starts[i + 1]);
        Some(CsVecView { inner: &self.inner[from..to], data: &self.data[from..to] })
    }

    pub fn outer_iterator(&self) -> impl Iterator<Item = CsVecView<'_>> {
        (0..self.starts.len() - 1).map(move |i| self.outer_view(i).unwrap())
    }

    /// Each entry with its row and column, in the order in which they are stored.
    pub fn iter(&self) -> impl Iterator<Item = (&f64, (usize, usize))> {
        let storage = self.storage;
        self.outer_iterator().enumerate().flat_map(move |(outer, view)| {
            view.iter().map(move |(inner, value)| match storage {
                Storage::ByRows => (value, (outer, inner)),
                Storage::ByColumns => (value, (inner, outer)),
            })
        })
    }

    pub fn transpose_view(&self) -> Self {
        let storage = match self.storage {
            Storage::ByRows => Storage::ByColumns,
            Storage::ByColumns => Storage::ByRows,
        };
        CsMat { storage, shape: (self.shape.1, self.shape.0), ..self.clone() }
    }

    pub fn to_csr(&self) -> Self {
        let mut rows = Self::empty_rows(self.rows());
        for (&value, (row, column)) in self.iter() {
            rows[row].insert(column, value);
        }
        Self::from_rows(self.shape, rows)
    }

    pub fn to_csc(&self) -> Self {
        self.transpose_view().to_csr().transpose_view()
    }

    pub fn to_dense(&self) -> Array2<f64> {
        let mut dense = Array2::zeros(self.shape);
        for (&value, (row, column)) in self.iter() {
            dense[[row, column]] = value;
        }
        dense
    }
}

/// Entry (i, c) is the sum of a(i, k) · b(k, c) over ascending k where both are stored.
impl Mul for &CsMat<f64> {
    type Output = CsMat<f64>;
    fn mul(self, other: &CsMat<f64>) -> CsMat<f64> {
        let (a, b) = (self.to_csr(), other.to_csr());
        assert_eq!(a.cols(), b.rows());
        let mut rows = CsMat::empty_rows(a.rows());
        for i in 0..a.rows() {
            for (k, x) in a.outer_view(i).unwrap().iter() {
                for (c, y) in b.outer_view(k).unwrap().iter() {
                    let sum = rows[i].entry(c).or_insert(0.0);
                    *sum = *sum + x * y;
                }
            }
        }
        CsMat::from_rows((a.rows(), b.cols()), rows)
    }
}

/// Where both are stored the two are added; elsewhere the one that is stored stands.
impl Add for &CsMat<f64> {
    type Output = CsMat<f64>;
    fn add(self, other: &CsMat<f64>) -> CsMat<f64> {
        assert_eq!(self.shape, other.shape);
        let mut rows = CsMat::empty_rows(self.rows());
        for (&value, (row, column)) in self.iter() {
            rows[row].insert(column, value);
        }
        for (&value, (row, column)) in other.iter() {
            let sum = rows[row].entry(column).or_insert(0.0);
            *sum = *sum + value;
        }
        CsMat::from_rows(self.shape, rows)
    }
}

/// A matrix by its entries, in any order.
pub struct TriMat<N> {
    shape: (usize, usize),
    entries: Vec<(usize, usize, N)>,
}

impl TriMat<f64> {
    pub fn new(shape: (usize, usize)) -> Self {
        TriMat { shape, entries: Vec::new() }
    }

    pub fn add_triplet(&mut self, row: usize, column: usize, value: f64) {
        self.entries.push((row, column, value));
    }

    pub fn to_csr(&self) -> CsMat<f64> {
        let mut rows = CsMat::empty_rows(self.shape.0);
        for &(row, column, value) in &self.entries {
            assert!(rows[row].insert(column, value).is_none());
        }
        CsMat::from_rows(self.shape, rows)
    }
}
