//! `cases_linear`: Z'WZ by the Rust's own map of it; the products by the loops that stand in for the libraries', which the fit of the
//! oracle calls too; the others by loops that are written in the fit itself and stand here again.
//! A buffer holds 9 before and is longer than what is written.
use super::line;
use crate::glmm_math::build_glmm_structural_maps;
use crate::ndarray::{Array1, Array2};
use crate::sprs::CsMat;

fn list(xs: &[f64]) -> Array1<f64> {
    Array1::from_vec(xs.to_vec())
}

/// The list, then one 9.
fn put_list(word: &str, xs: &Array1<f64>) {
    line(word, xs.iter().copied().chain([9.0]));
}

/// X of three rows and two columns times the weights, column by column, and X'WX.
fn cross(x: &Array2<f64>, w: &[f64; 3]) -> (Array2<f64>, Array2<f64>) {
    let mut w_diag_x = Array2::zeros(x.dim());
    for j in 0..2 {
        for i in 0..3 {
            w_diag_x[[i, j]] = x[[i, j]] * w[i];
        }
    }
    let xt_w_x = w_diag_x.t().dot(x);
    (w_diag_x, xt_w_x)
}

fn effects() {
    let (w_y, w_cols, beta) = ([1.0, 0.7, 1e16], [[0.1, 1e16, 3.0], [0.3, -1e16, 0.9]], [0.7, 1.1]);
    let mut u = Array1::zeros(3);
    for i in 0..3 {
        let mut w_beta_i = 0.0;
        for j in 0..2 {
            w_beta_i += w_cols[j][i] * beta[j];
        }
        u[i] = w_y[i] - w_beta_i;
    }
    put_list("effects", &u);
}

/// The unsolved columns stand from 1 on and the lower triangle of the normal matrix from 8 on.
fn normal(xt_w_x: &Array2<f64>) {
    let v_cols = [list(&[0.2, 0.6, 1.1]), list(&[-0.7, 0.4, 1.3])];
    let w_cols = [list(&[0.1, 0.7, 3.0]), list(&[0.3, -0.2, 0.9])];
    let mut rzx_t_rzx = Array2::zeros((2, 2));
    for i in 0..2 {
        for j in 0..2 {
            rzx_t_rzx[[i, j]] = v_cols[i].dot(&w_cols[j]);
        }
    }
    let a_x = xt_w_x - &rzx_t_rzx;
    let columns = v_cols[0].iter().chain(&v_cols[1]).copied();
    let lower = [9.0, a_x[[0, 0]], 9.0, a_x[[1, 0]], a_x[[1, 1]], 9.0];
    line("normal", [9.0].into_iter().chain(columns).chain(lower));
}

/// Five rows of Z' over five observations: 1 3 4, none, 0 2 3 4, 1 3 4, 0 2.
fn stored() {
    let values = vec![0.1, -0.7, 0.3, 1e16, 1.1, -1e16, 0.9, 0.7, 0.9, 1.9, 2.3, 0.6];
    let zt = CsMat::new((5, 5), vec![0, 3, 3, 7, 10, 12], vec![1, 3, 4, 0, 2, 3, 4, 1, 3, 4, 0, 2], values);
    let (v, w, b) = ([1.0, 0.7, 3.0, 1.0, 0.3], [1.8, 0.1, 0.7, 1.3, 0.3], [0.3, 5.0, 1.1, 1.7, 0.7]);
    let mut side = Array1::zeros(5);
    for (val, (row, col)) in zt.iter() {
        side[row] += val * v[col];
    }
    put_list("zt_times", &side);
    let (mut zt_w_z, map) = build_glmm_structural_maps(&zt);
    for entry in zt_w_z.data_mut() {
        *entry = 0.0;
    }
    for &(k, data_idx, val) in &map {
        zt_w_z.data_mut()[data_idx] += val * w[k];
    }
    let dense = zt_w_z.to_dense();
    put_list("ztwz", &Array1::from_vec((0..25).map(|at| dense[[at / 5, at % 5]]).collect()));
    let mut z_b = Array1::zeros(5);
    for (j, row_vec) in zt.outer_iterator().enumerate() {
        for (i, &val) in row_vec.iter() {
            z_b[i] += val * b[j];
        }
    }
    put_list("z_times", &z_b);
}

pub fn put() {
    let x = Array2::from_rows((3, 2), vec![1.0, 1e16, 0.1, -1e16, 0.7, 3.0]);
    put_list("x_beta", &x.dot(&list(&[0.3, 1.0])));
    put_list("products", &(&list(&[1.8, 0.1, -0.0]) * &list(&[0.7, 3.0, 1e16])));
    let x = Array2::from_rows((3, 2), vec![0.9, 2.4, -2.3, -0.2, -1.5, 0.3]);
    let (w_diag_x, xt_w_x) = cross(&x, &[1.8, 0.1, 0.7]);
    for a in 0..2 {
        put_list("xw", &Array1::from_vec((0..3).map(|i| w_diag_x[[i, a]]).collect()));
        line("cross", [xt_w_x[[a, 0]], xt_w_x[[a, 1]]]);
    }
    effects();
    normal(&xt_w_x);
    stored();
}
