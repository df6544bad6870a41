//! `cases_factor`, by the loops that stand in for the libraries' LDL', Cholesky, substitution and inverses: the fit of the oracle calls the same.
//! What stands above a diagonal is NaN in the matrix and 9 in the buffer: the first is not read, the second stays.
use super::line;
use crate::ndarray::{Array1, Array2};
use crate::ndarray_linalg::{backward, by_columns, cholesky_in_place, forward, LinalgError};
use crate::sprs_ldl;

const NAN: f64 = f64::NAN;
const INF: f64 = f64::INFINITY;
const RIGHT: [f64; 4] = [1.0, -2.0, 0.3, 3.0];

/// Lower triangles, row by row, of 1 to 4 rows.
const CASES: [&[&[f64]]; 4] = [
    &[
        &[4.0],
        &[0.0],
        &[-0.0],
        &[-3.0],
        &[2.0],
        &[5e-324],
        &[1e308],
        &[NAN],
        &[INF],
        &[-INF],
    ],
    &[
        &[4.0, 2.0, 3.0],
        &[1.0, 1.0, 1.0],
        &[0.0, 1.0, 2.0],
        &[-4.0, 2.0, 3.0],
        &[0.1, 0.3, 0.7],
        &[1e-300, 1.0, 1.0],
        &[1e-200, 1e200, 1.0],
        &[1e-320, 3e-322, 1.0],
        &[2.0, NAN, 3.0],
        &[3.0, 1.0, INF],
        &[-0.0, 0.0, 1.0],
        &[1e160, 1e159, 1e160],
        &[INF, 1.0, 2.0],
    ],
    &[
        &[4.0, 2.0, 5.0, -2.0, 1.0, 6.0],
        &[4.0, 2.0, 10.0, -2.0, 2.0, 6.0],
        &[1.0, 0.5, 0.3333333333333333, 0.3333333333333333, 0.25, 0.2],
        &[0.1, 0.2, 0.7, 0.3, -0.4, 0.9],
        &[1.0, 2.0, 4.0, 3.0, 6.0, 9.0],
        &[2.0, 1.0, -3.0, 0.5, 0.25, -1.0],
        &[1e-8, 1e3, 1e20, 2.0, 3.0, 4.0],
        &[7.0, 1.0, 3.0, 2.0, NAN, 5.0],
        &[1.0, 0.0, 1.0, INF, 0.0, 1.0],
        &[3.0, 1.0, 2.0, 1.0, 1.0, 0.6],
        &[1e-300, 1e-150, 2.0, 1e-155, 1.0, 3.0],
    ],
    &[
        &[4.0, 1.0, 5.0, -1.0, 0.5, 6.0, 0.25, -0.75, 1.5, 7.0],
        &[1.0, 0.5, 0.3333333333333333, 0.3333333333333333, 0.25, 0.2, 0.25, 0.2, 0.16666666666666666, 0.14285714285714285],
        &[0.3, 0.1, 0.7, -0.2, 0.15, 1.1, 0.05, -0.35, 0.45, 0.9],
        &[1e-12, 1e-6, 5.0, 3e-7, 0.25, 1e6, 1e-3, 12.0, 700.0, 1e12],
        &[2.0, 1.0, 2.0, 1.0, 1.0, 2.0, 1.0, 1.0, 1.0, 1.0],
        &[2.0, 1.0, 2.0, 1.0, 1.0, 2.0, 2.0, 2.0, 2.0, 3.0],
        &[-1.0, 0.5, 2.0, 0.25, 1.5, -3.0, 0.125, 0.75, 2.5, 4.0],
        &[1.0, 0.1, 1.0, 0.2, 0.3, 1.0, 0.4, NAN, 0.6, 1.0],
        &[9.0, 3.0, 5.0, 1.0, 2.0, 4.0, 0.5, 1.0, INF, 8.0],
    ],
];

fn matrix(size: usize, lower: &[f64]) -> Array2<f64> {
    let mut a = Array2::filled((size, size), NAN);
    let mut next = lower.iter();
    for i in 0..size {
        for j in 0..i + 1 {
            a[[i, j]] = *next.next().unwrap();
        }
    }
    a
}

/// Sixteen numbers: the matrix row by row, then what the buffer held.
fn put_matrix(word: &str, a: &Array2<f64>, rest: f64) {
    let size = a.nrows();
    let held = (0..size * size).map(|at| a[[at / size, at % size]]);
    line(word, held.chain((size * size..16).map(|_| rest)));
}

fn put_end(word: &str, end: Result<(), LinalgError>) {
    match end {
        Ok(()) => println!("{} -", word),
        Err(LinalgError(pivot)) => println!("{} {}", word, pivot),
    }
}

fn put_solution(size: usize, x: Array1<f64>) {
    line("solution", x.iter().copied().chain(RIGHT[size..].iter().copied()));
}

fn case(size: usize, lower: &[f64]) {
    let a = matrix(size, lower);
    let right = Array1::from_vec(RIGHT[..size].to_vec());
    put_matrix("matrix", &a, 0.0);
    let mut f = Array2::filled((size, size), 9.0);
    put_end("ldl", sprs_ldl::factor(&a, &mut f));
    put_matrix("factor", &f, 9.0);
    put_solution(size, sprs_ldl::solve(&f, &right));
    put_matrix("inverse", &by_columns(size, |unit| sprs_ldl::solve(&f, unit)), 9.0);
    let mut f = a;
    put_end("cholesky", cholesky_in_place(&mut f));
    put_matrix("factor", &f, 0.0);
    put_solution(size, backward(&f, &forward(&f, &right)));
    let inverse = by_columns(size, |unit| forward(&f, unit));
    put_matrix("columns", &inverse.t(), 9.0);
    let v = inverse.t().dot(&inverse);
    for i in 0..size {
        line("v", (0..size).map(|j| v[[i, j]]));
    }
}

/// Two right sides of 4 numbers, and how many of them are solved.
const SIDES: [([f64; 8], usize); 7] = [
    ([1.0, -2.0, 0.3, 3.0, 0.1, 0.2, -0.3, 0.7], 0),
    ([1.0, -2.0, 0.3, 3.0, 0.1, 0.2, -0.3, 0.7], 1),
    ([1.0, -2.0, 0.3, 3.0, 0.1, 0.2, -0.3, 0.7], 2),
    ([INF, -2.0, 0.3, 3.0, 0.1, 0.2, -0.3, 0.7], 2),
    ([1.0, -2.0, 0.3, 3.0, 0.1, -INF, -0.3, 0.7], 2),
    ([1.0, -2.0, 0.3, 3.0, 0.1, 1e308, -1.7e308, 0.7], 2),
    ([-1.0, NAN, 7.0, 1e-3, 1.0, -2.0, 1e308, 3.0], 2),
];

/// A factor with zeros of either sign at the heads of its rows and columns; each right side solved by itself.
fn with_zeros(d: f64) {
    let f = matrix(4, &[2.0, 0.0, 0.3, -0.0, 0.5, 8.0, 0.0, -0.0, 0.25, d]);
    put_matrix("factor", &f, 0.0);
    for (right, count) in SIDES.iter() {
        line("right", right.iter().copied());
        let solved = right[..4 * count].chunks(4).flat_map(|side| sprs_ldl::solve(&f, &Array1::from_vec(side.to_vec())).iter().copied().collect::<Vec<f64>>());
        line("solutions", solved.chain(right[4 * count..].iter().copied()));
    }
}

pub fn put() {
    for (at, cases) in CASES.iter().enumerate() {
        for lower in cases.iter() {
            case(at + 1, lower);
        }
    }
    with_zeros(0.5);
    with_zeros(1e-310);
}
