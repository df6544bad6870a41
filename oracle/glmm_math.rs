//! GLMM deviance computation using the Penalized Iteratively Reweighted Least Squares (PIRLS) algorithm.
//!
//! This module is the GLMM counterpart of `math.rs` for LMMs.
//! For a given theta (variance parameters), it runs the PIRLS inner loop to find
//! the conditional modes of the random effects and fixed effects, then computes
//! the Laplace-approximated deviance, or adaptive Gauss–Hermite quadrature for a single random-effect
//! block when `n_agq > 1` (scalar `k = 1` per group, or product quadrature for vector `k > 1`).
//! With **multiple** random-effect terms, joint AGQ over the full `u` is used when `q` is small.

use crate::elementary::Elementary; // ALTERED: added, ln, exp and sqrt of elementary_c
use crate::{account, log, ndarray, ndarray_linalg, sprs, sprs_ldl}; // ALTERED: added, the counts and the stand-ins
use crate::family::GlmFamily;
use crate::model_matrix::ReBlock;
use crate::quadrature::{
    gh_rule, log_sum_exp, resolve_gh_order_joint, resolve_gh_order_product, AGQ_JOINT_MAX_Q,
};
use ndarray::{Array1, Array2};
use ndarray_linalg::UPLO;
use ndarray_linalg::{Cholesky, Inverse, Solve};
use sprs::{CsMat, TriMat};
use std::collections::BTreeSet; // ALTERED: a HashSet, whose order changes from run to run

fn csr_diag_entry(a: &CsMat<f64>, i: usize) -> Option<f64> {
    let row = a.outer_view(i)?;
    for (col, &val) in row.iter() {
        if col == i {
            return Some(val);
        }
    }
    None
}

fn csr_get(a: &CsMat<f64>, i: usize, j: usize) -> f64 {
    let row = match a.outer_view(i) { // ALTERED: let .. else
        Some(row) => row, // ALTERED: added
        None => return 0.0, // ALTERED: let .. else
    };
    for (col, &val) in row.iter() {
        if col == j {
            return val;
        }
    }
    0.0
}

fn csr_dense_block(a: &CsMat<f64>, start: usize, k: usize) -> Array2<f64> {
    let mut mat = Array2::<f64>::zeros((k, k));
    for i in 0..k {
        for j in 0..k {
            mat[[i, j]] = csr_get(a, start + i, start + j);
        }
    }
    mat
}

/// Precompute \(Z^T Z\) and the PIRLS \(Z^T W Z\) update map (independent of \(y\) and weights scale).
pub fn build_glmm_structural_maps(zt: &CsMat<f64>) -> (CsMat<f64>, Vec<(usize, usize, f64)>) {
    let zt_z = (zt * &zt.transpose_view()).to_csr();

    let z_csc = zt.to_csc();
    let mut zt_w_z_map = Vec::new();
    let n = zt.cols();
    for k in 0..n {
        if let Some(col_k) = z_csc.outer_view(k) {
            let indices = col_k.indices();
            let data = col_k.data();
            for i in 0..indices.len() {
                for j in 0..indices.len() {
                    let row_a = indices[i];
                    let row_b = indices[j];
                    let val = data[i] * data[j];

                    let row_view = zt_z.outer_view(row_a).unwrap();
                    let mut data_idx = None;

                    let base_ptr = zt_z.data().as_ptr() as usize;
                    let row_ptr = row_view.data().as_ptr() as usize;
                    let start_idx = (row_ptr - base_ptr) / std::mem::size_of::<f64>();

                    for (offset, &col) in row_view.indices().iter().enumerate() {
                        if col == row_b {
                            data_idx = Some(start_idx + offset);
                            break;
                        }
                    }
                    if let Some(idx) = data_idx {
                        zt_w_z_map.push((k, idx, val));
                    }
                }
            }
        }
    }
    (zt_z, zt_w_z_map)
}

/// Immutable GLMM matrices and structural maps shared by response workspaces.
pub struct GlmmDesign {
    /// Fixed-effects matrix.
    pub x: Array2<f64>,
    /// Transposed random-effects matrix.
    pub zt: CsMat<f64>,
    /// Group/block metadata.
    pub re_blocks: Vec<ReBlock>,
    /// Observation weights.
    pub weights: Option<Array1<f64>>,
    /// Structural cross-product.
    pub zt_z: CsMat<f64>,
    /// Sparse weighted-product mapping.
    pub zt_w_z_map: Vec<(usize, usize, f64)>,
}

/// Independent GLMM response and numerical workspace, sharing immutable design.
pub struct GlmmData {
    /// Shared immutable design.
    pub design: std::sync::Arc<GlmmDesign>,
    workspace: Option<GlmmWorkspace>,
    control: crate::FitControl,
    /// Response vector.
    pub y: Array1<f64>,
    /// Family and link functions.
    pub family: Box<dyn GlmFamily>,
}
impl std::ops::Deref for GlmmData {
    type Target = GlmmDesign;
    fn deref(&self) -> &Self::Target {
        &self.design
    }
}

struct GlmmWorkspace {
    zt_w_z: CsMat<f64>,
    eye: CsMat<f64>,
    w_diag_x: Array2<f64>,
    ldl: Option<sprs_ldl::LdlNumeric<f64, usize>>,
    pattern_indices: Vec<usize>,
    pattern_indptr: Vec<usize>,
}

impl GlmmWorkspace {
    fn new(data: &GlmmData) -> Self {
        Self {
            zt_w_z: data.zt_z.clone(),
            eye: CsMat::eye(data.zt.rows()),
            w_diag_x: Array2::zeros(data.x.dim()),
            ldl: None,
            pattern_indices: Vec::new(),
            pattern_indptr: Vec::new(),
        }
    }
}

/// Result of PIRLS convergence for a single theta evaluation.
#[derive(Debug, Clone)]
pub struct GlmmCoefficients {
    /// PIRLS iterations at the final dispersion value.
    pub iterations: usize,
    /// Quadrature order actually used, or one for Laplace.
    pub effective_n_agq: usize,
    /// Whether the dispersion iteration converged (true for fixed-dispersion families).
    pub dispersion_converged: bool,
    /// Laplace-approximated deviance (cost for optimizer).
    pub deviance: f64,
    /// Fixed effects coefficients.
    pub beta: Array1<f64>,
    /// Conditional modes of random effects (b = Λu).
    pub b: Array1<f64>,
    /// Spherical random effects.
    pub u: Array1<f64>,
    /// Fitted values on the response scale (μ = g⁻¹(η)).
    pub fitted: Array1<f64>,
    /// Linear predictor η = Xβ + Zb.
    pub eta: Array1<f64>,
    /// Working residuals on the response scale.
    pub residuals: Array1<f64>,
    /// Standard errors for fixed effects.
    pub beta_se: Array1<f64>,
    /// z-values for fixed effects (beta / se).
    pub beta_z: Array1<f64>,
    /// Unscaled variance-covariance matrix of fixed effects.
    pub v_beta_unscaled: Array2<f64>,
    /// Profiled GLM dispersion φ (`1` for binomial/Poisson).
    pub phi: f64,
}

impl GlmmData {
    /// Set numerical controls for subsequent evaluations.
    pub fn set_control(&mut self, control: crate::FitControl) {
        self.control = control;
    }

    /// Construct a fresh GLMM data block capturing design matrices and specific generative distributions,
    /// pre-building the index maps used repeatedly during inner PIRLS loops for $Z^T W Z$ weight updates.
    pub fn new(
        x: Array2<f64>,
        zt: CsMat<f64>,
        y: Array1<f64>,
        re_blocks: Vec<ReBlock>,
        family: Box<dyn GlmFamily>,
        _n_agq: usize,
    ) -> Self {
        Self::new_weighted(x, zt, y, re_blocks, family, _n_agq, None)
    }

    /// Construct a GLMM data block with optional prior observation weights.
    pub fn new_weighted(
        x: Array2<f64>,
        zt: CsMat<f64>,
        y: Array1<f64>,
        re_blocks: Vec<ReBlock>,
        family: Box<dyn GlmFamily>,
        _n_agq: usize,
        weights: Option<Array1<f64>>,
    ) -> Self {
        let (zt_z, zt_w_z_map) = build_glmm_structural_maps(&zt);
        Self::from_structural_parts(x, zt, y, re_blocks, family, weights, zt_z, zt_w_z_map)
    }

    /// Construct using precomputed \(Z^T Z\) and PIRLS weight-update maps (amortized θ search / bootstrap).
    #[allow(clippy::too_many_arguments)]
    pub fn from_structural_parts(
        x: Array2<f64>,
        zt: CsMat<f64>,
        y: Array1<f64>,
        re_blocks: Vec<ReBlock>,
        family: Box<dyn GlmFamily>,
        weights: Option<Array1<f64>>,
        zt_z: CsMat<f64>,
        zt_w_z_map: Vec<(usize, usize, f64)>,
    ) -> Self {
        Self::from_design(
            std::sync::Arc::new(GlmmDesign {
                x,
                zt,
                re_blocks,
                weights,
                zt_z,
                zt_w_z_map,
            }),
            y,
            family,
        )
    }

    /// Construct an independent workspace around an existing immutable design.
    pub fn from_design(
        design: std::sync::Arc<GlmmDesign>,
        y: Array1<f64>,
        family: Box<dyn GlmFamily>,
    ) -> Self {
        Self {
            design,
            y,
            family,
            workspace: None,
            control: crate::FitControl::default(),
        }
    }

    /// Replace the response while sharing matrices and structural maps.
    pub fn with_response(&self, y: Array1<f64>, family: Box<dyn GlmFamily>) -> Self {
        assert_eq!(
            y.len(),
            self.y.len(),
            "GlmmData::with_response length mismatch"
        );
        let mut next = Self::from_design(self.design.clone(), y, family);
        next.control = self.control.clone();
        next
    }

    fn observation_weights(&self) -> Array1<f64> {
        self.weights
            .clone()
            .unwrap_or_else(|| Array1::ones(self.y.len()))
    }

    /// Data-fit term in the Laplace / AGQ objective.
    ///
    /// Binomial and Poisson keep the GLM residual deviance. Free-dispersion
    /// families use `family.aic() - 2`, matching lme4 `glmResp::Laplace`.
    fn laplace_fit_term(&self, mu: &Array1<f64>, sum_dev: f64) -> f64 {
        if self.family.uses_dispersion() {
            let wt = self.observation_weights();
            self.family.aic(&self.y, mu, &wt, sum_dev) - 2.0
        } else {
            sum_dev
        }
    }

    /// Compute Laplace or AGQ approximated deviance.
    pub fn laplace_deviance(
        &mut self,
        theta: &[f64],
        offset: Option<&Array1<f64>>,
        n_agq: usize,
    ) -> f64 {
        match self.pirls(theta, offset, n_agq) {
            Some(coefs) => coefs.deviance,
            None => f64::MAX, // Return large value for invalid regions
        }
    }

    /// Compute coefficients and final structural parameters at the MLE / REML theta.
    pub fn evaluate(
        &mut self,
        theta: &[f64],
        offset: Option<&Array1<f64>>,
        n_agq: usize,
    ) -> Option<GlmmCoefficients> {
        self.pirls(theta, offset, n_agq)
    }

    /// Run the full PIRLS algorithm for a given theta.
    /// Returns `None` if PIRLS fails to converge or hits numerical issues.
    ///
    /// For families with a free dispersion (Gamma, Gaussian), φ is profiled with
    /// a nested moment estimator matching lme4's `profilePhi()`: IRLS weights
    /// use `1/φ` while the random-effects penalty `u'u` is left unscaled.
    pub fn pirls(
        &mut self,
        theta: &[f64],
        offset: Option<&Array1<f64>>,
        n_agq: usize,
    ) -> Option<GlmmCoefficients> {
        if !self.family.uses_dispersion() {
            return self.pirls_with_phi(theta, offset, n_agq, 1.0);
        }

        let n_eff = self.observation_weights().sum().max(1.0);
        let mut phi = 1.0_f64;
        const MAX_PHI_ITER: usize = 240;
        const PHI_TOL: f64 = 1e-8;
        for _ in 0..MAX_PHI_ITER {
            let coefs = self.pirls_with_phi(theta, offset, n_agq, phi)?;
            let wt = self.observation_weights();
            let sum_dev = self.family.dev_resid(&self.y, &coefs.fitted, &wt).sum();
            if !sum_dev.is_finite() || sum_dev <= 0.0 {
                return Some(coefs);
            }
            let phi_new = (sum_dev / n_eff).max(f64::EPSILON);
            let rel = (phi_new - phi).abs() / phi.max(f64::EPSILON);
            if rel < PHI_TOL {
                return Some(coefs);
            }
            phi = (0.9 * phi.glmm_ln() + 0.1 * phi_new.glmm_ln()).glmm_exp(); // ALTERED: of elementary_c
            if !phi.is_finite() || phi <= 0.0 {
                return Some(coefs);
            }
        }
        let mut coefs = self.pirls_with_phi(theta, offset, n_agq, phi)?;
        coefs.dispersion_converged = false;
        Some(coefs)
    }

    fn pirls_with_phi(
        &mut self,
        theta: &[f64],
        offset: Option<&Array1<f64>>,
        n_agq: usize,
        phi: f64,
    ) -> Option<GlmmCoefficients> {
        let mut workspace = self
            .workspace
            .take()
            .unwrap_or_else(|| GlmmWorkspace::new(self));
        let result = self.pirls_with_workspace(theta, offset, n_agq, phi, &mut workspace);
        self.workspace = Some(workspace);
        result
    }

    fn pirls_with_workspace(
        &self,
        theta: &[f64],
        offset: Option<&Array1<f64>>,
        n_agq: usize,
        phi: f64,
        workspace: &mut GlmmWorkspace,
    ) -> Option<GlmmCoefficients> {
        account::fit(); // ALTERED: counted
        let n = self.y.len();
        let q = self.zt.rows();
        let p = self.x.ncols();
        let link = self.family.link();

        // Build Lambda from theta (same as LMM)
        let lambda = self.build_lambda(theta, q);

        // Initialize: mu from family, eta from link
        let mut mu = if self.control.trials { crate::start::trials_means(&self.y, &self.observation_weights()) } else { self.family.initialize_mu(&self.y) }; // ALTERED: R's start where a job asks for it
        let mut eta = link.link_fun(&mu);
        if let Some(off) = offset {
            eta += off;
        }

        let wt = self.observation_weights();

        let max_iter = self
            .control
            .max_inner_iterations
            .unwrap_or(if link.name() == "inverse" { 1000 } else { 100 });
        let tol = 1e-8;
        let mut old_pwrss = f64::MAX;

        // Initialize u to zero
        let mut u = Array1::<f64>::zeros(q);

        let mut beta = Array1::<f64>::zeros(p);

        for _iter in 0..max_iter {
            // 1. Compute working weights and working response
            let mu_eta_val = link.mu_eta(&eta);
            let var_mu = self.family.variance(&mu);

            // Combined weights: prior wt * IRLS (dμ/dη)² / (φ V(μ)).
            // φ = 1 for binomial/Poisson; profiled for Gamma/Gaussian so the
            // data-fit curvature matches the residual dispersion while the
            // random-effects prior penalty stays unscaled (lme4 `d_phi`).
            let mut w = Array1::<f64>::zeros(n);
            for i in 0..n {
                let me = mu_eta_val[i];
                let v = var_mu[i].max(f64::EPSILON);
                w[i] = (wt[i] * me * me / (phi.max(f64::EPSILON) * v)).max(f64::EPSILON);
            }

            // Working response: z = eta + (y - mu) / (dmu/deta)
            let mut z = Array1::<f64>::zeros(n);
            for i in 0..n {
                let me_raw = mu_eta_val[i];
                let me = if me_raw.abs() < f64::EPSILON {
                    if me_raw.is_sign_negative() {
                        -f64::EPSILON
                    } else {
                        f64::EPSILON
                    }
                } else {
                    me_raw
                };
                z[i] = eta[i] + (self.y[i] - mu[i]) / me;
            }

            // 2. Solve the penalized weighted least squares system
            // A = Λ'Z'WZΛ + I
            let lam_t = lambda.transpose_view();

            // Build W*Z and related products
            // We need: Λ'Z'WZΛ which requires weighting Z by sqrt(W)
            // Compute ZΛ products column-by-column through sparse ops

            // Build Z^T W Z in-place using the precomputed map
            let zt_w_z = &mut workspace.zt_w_z;
            for v in zt_w_z.data_mut() {
                *v = 0.0;
            }
            for &(k, data_idx, val) in &self.zt_w_z_map {
                zt_w_z.data_mut()[data_idx] += val * w[k];
            }
            let a_part = &lam_t * &(&*zt_w_z * &lambda);

            let a = &a_part + &workspace.eye;
            account::ends_as(10); // ALTERED: counted
            // Reuse symbolic LDL only while the complete sparse pattern matches.
            if workspace.pattern_indices != a.indices()
                || workspace.pattern_indptr != a.indptr().raw_storage()
            {
                workspace.ldl = None;
            }
            if let Some(ldl) = &mut workspace.ldl {
                if ldl.update(a.view()).is_err() {
                    return None;
                }
            } else {
                workspace.ldl = Some(
                    sprs_ldl::Ldl::new()
                        .check_symmetry(sprs::SymmetryCheck::DontCheckSymmetry)
                        .numeric(a.view())
                        .ok()?,
                );
                workspace.pattern_indices = a.indices().to_vec();
                workspace.pattern_indptr = a.indptr().raw_storage().to_vec();
            }
            let ldl = workspace.ldl.as_ref()?;

            // Working response z includes the offset via η; for the penalized WLS
            // solve we regress z − offset on X and Z so β and b do not absorb o.
            let z_for_fit: Array1<f64> = if let Some(off) = offset {
                &z - off
            } else {
                z.clone()
            };

            // Compute weighted Zt * z_for_fit for the u-update
            // RHS_u = Λ'Z'W(z − offset)
            let wz = &w * &z_for_fit;
            let mut zt_wz = Array1::<f64>::zeros(q);
            for (val, (row, col)) in self.zt.iter() {
                zt_wz[row] += val * wz[col];
            }
            let mut v_y = Array1::<f64>::zeros(q);
            for (val, (row, col)) in lam_t.iter() {
                v_y[row] += val * zt_wz[col];
            }

            let w_y_vec: Vec<f64> = ldl.solve(v_y.to_vec());
            let w_y = Array1::from_vec(w_y_vec);

            // RHS for beta: X'W*z and X'W*Z*Λ terms
            let w_diag_x = &mut workspace.w_diag_x;
            for j in 0..p {
                for i in 0..n {
                    w_diag_x[[i, j]] = self.x[[i, j]] * w[i];
                }
            }
            let xt_w_x = w_diag_x.t().dot(&self.x);
            let xt_wz_vec = w_diag_x.t().dot(&z_for_fit);

            // Compute RZX = L⁻¹ Λ'Z'WX per column (same approach as LMM in math.rs)
            let mut w_cols = Vec::with_capacity(p);
            let mut v_cols = Vec::with_capacity(p);
            for j in 0..p {
                // Extract weighted X column: W * x_col
                let mut wx_col = Array1::<f64>::zeros(n);
                for i in 0..n {
                    wx_col[i] = self.x[[i, j]] * w[i];
                }
                // Z'W x_col
                let mut zt_wx_j = Array1::<f64>::zeros(q);
                for (val, (row, col)) in self.zt.iter() {
                    zt_wx_j[row] += val * wx_col[col];
                }
                // Λ' Z'W x_col
                let mut v_j = Array1::<f64>::zeros(q);
                for (val, (row, col)) in lam_t.iter() {
                    v_j[row] += val * zt_wx_j[col];
                }

                let w_j_vec: Vec<f64> = ldl.solve(v_j.to_vec());
                let w_j = Array1::from_vec(w_j_vec);
                v_cols.push(v_j);
                w_cols.push(w_j);
            }

            // RZX'RZX
            let mut rzx_t_rzx = Array2::<f64>::zeros((p, p));
            for i in 0..p {
                for j in 0..p {
                    rzx_t_rzx[[i, j]] = v_cols[i].dot(&w_cols[j]);
                }
            }

            // RZX'cu
            let mut rzx_t_cu = Array1::<f64>::zeros(p);
            for i in 0..p {
                rzx_t_cu[i] = v_cols[i].dot(&w_y);
            }

            // Downdated X'WX
            let a_x = &xt_w_x - &rzx_t_rzx;
            account::ends_as(11); // ALTERED: counted
            let l_x = match a_x.cholesky(UPLO::Lower) {
                Ok(l) => l,
                Err(e) => {
                    log::debug!("Cholesky of X'WX downdate failed: {:?}", e);
                    log::debug!("theta: {:?}", theta);
                    log::debug!("beta: {:?}", beta);
                    log::debug!("xt_w_x diag: {:?}", xt_w_x.diag());
                    log::debug!("a_x diag: {:?}", a_x.diag());
                    return None;
                }
            };

            // Solve for beta
            let rhs_beta = &xt_wz_vec - &rzx_t_cu;
            let c_beta = match l_x.solve(&rhs_beta) {
                Ok(c) => c,
                Err(e) => {
                    log::debug!("Solve for c_beta failed: {:?}", e);
                    return None;
                }
            };
            beta = match l_x.t().solve(&c_beta) {
                Ok(b) => b,
                Err(e) => {
                    log::debug!("Solve for beta failed: {:?}", e);
                    return None;
                }
            };

            // Solve for u
            for i in 0..q {
                let mut w_beta_i = 0.0;
                for j in 0..p {
                    w_beta_i += w_cols[j][i] * beta[j];
                }
                u[i] = w_y[i] - w_beta_i;
            }
            account::solve(); // ALTERED: counted
            account::ends_as(12); // ALTERED: counted

            // Update eta, mu
            let mut b = Array1::<f64>::zeros(q);
            for (val, (row, col)) in lambda.iter() {
                b[row] += val * u[col];
            }
            let x_beta = self.x.dot(&beta);

            // Compute Z*b
            let mut z_b_vec = vec![0.0f64; n];
            for (j, row_vec) in self.zt.outer_iterator().enumerate() {
                for (i, &val) in row_vec.iter() {
                    z_b_vec[i] += val * b[j];
                }
            }
            let z_b = Array1::from_vec(z_b_vec);

            let eta_prev = eta.clone();
            let mut eta_raw = &x_beta + &z_b;
            if let Some(off) = offset {
                eta_raw += off;
            }

            // Dampen PIRLS updates only when the proposed linear predictor steps
            // outside the link's numerically stable region, which is especially
            // important for Gamma with the inverse link.
            let mut accepted = None;
            let delta_eta = &eta_raw - &eta_prev;
            let needs_positive_eta = link.name() == "inverse";
            let mut step = 1.0;
            let max_backoff = if needs_positive_eta { 100 } else { 25 };
            for _ in 0..max_backoff {
                let eta_candidate = &eta_prev + &(delta_eta.clone() * step);
                account::attempt(); // ALTERED: counted

                let eta_valid = eta_candidate
                    .iter()
                    .all(|e| e.is_finite() && (!needs_positive_eta || *e > f64::EPSILON));
                if !eta_valid {
                    account::refused_eta(); // ALTERED: counted
                    step *= 0.5;
                    continue;
                }

                let mu_candidate = link.link_inv(&eta_candidate);
                if !mu_candidate.iter().all(|m| m.is_finite()) {
                    account::refused_mean(); // ALTERED: counted
                    step *= 0.5;
                    continue;
                }

                let mut pwrss_candidate = u.dot(&u);
                for i in 0..n {
                    pwrss_candidate += w[i] * (z[i] - eta_candidate[i]).powi(2);
                }
                if pwrss_candidate.is_finite() {
                    accepted = Some((eta_candidate, mu_candidate, pwrss_candidate));
                    account::accepted(); // ALTERED: counted
                    break;
                }

                account::refused_pwrss(); // ALTERED: counted
                step *= 0.5;
            }

            let (eta_next, mu_next, pwrss) = match accepted { // ALTERED: let .. else
                Some(found) => found, // ALTERED: added
                None => { // ALTERED: added
                log::debug!("PIRLS step-halving failed to find a valid update");
                return None;
                } // ALTERED: added
            };

            eta = eta_next;
            mu = mu_next;

            log::debug!(
                "PIRLS Iter {}: old_pwrss = {}, new_pwrss = {}",
                _iter,
                old_pwrss,
                pwrss
            );

            if (old_pwrss - pwrss).abs() / (pwrss + 0.1) < tol {
                // Compute Laplace deviance
                let dev_resid = self.family.dev_resid(&self.y, &mu, &wt);
                let sum_dev_resid: f64 = dev_resid.sum();

                // log|A| from LDLT
                let mut log_det_a = 0.0;
                for &d in ldl.d() {
                    log_det_a += d.abs().glmm_ln(); // ALTERED: of elementary_c
                }

                // Laplace-approximated conditional deviance for the optimizer.
                // Dispersion families use lme4's aic()-based term (minus the +2
                // AIC bookkeeping constant) so φ enters the data-fit density.
                let fit_term = self.laplace_fit_term(&mu, sum_dev_resid);
                let mut deviance = fit_term + log_det_a + u.dot(&u);

                let mut effective_n_agq = 1;
                account::why(1); // ALTERED: told, the wish is below 2
                if n_agq > 1 {
                    if self.re_blocks.len() == 1 {
                        if let Some(d_agq) =
                            self.agq_deviance(n_agq, &a, &u, &beta, &lambda, offset, &mu, phi)
                        {
                            deviance = d_agq;
                            account::why(0); // ALTERED: told
                            effective_n_agq = if self.re_blocks.len() == 1 {
                                resolve_gh_order_product(n_agq, self.re_blocks[0].k).unwrap_or(1)
                            } else {
                                resolve_gh_order_joint(n_agq, u.len()).unwrap_or(1)
                            };
                        }
                    } else if u.len() <= AGQ_JOINT_MAX_Q {
                        if let Some(d_agq) =
                            self.agq_deviance_joint(n_agq, &a, &u, &beta, &lambda, offset, &mu, phi)
                        {
                            deviance = d_agq;
                            account::why(0); // ALTERED: told
                            effective_n_agq = if self.re_blocks.len() == 1 {
                                resolve_gh_order_product(n_agq, self.re_blocks[0].k).unwrap_or(1)
                            } else {
                                resolve_gh_order_joint(n_agq, u.len()).unwrap_or(1)
                            };
                        } else {
                            log::debug!(
                                "Joint AGQ failed (singular Hessian or grid too large); using Laplace."
                            );
                        }
                    } else {
                        account::why(2); // ALTERED: told, too many effects
                        log::warn!(
                            "nAGQ > 1 with multiple random-effect terms requires total RE dimension q <= {} (got {}). Falling back to Laplace (nAGQ = 1).",
                            AGQ_JOINT_MAX_Q,
                            u.len()
                        );
                    }
                }

                // Standard errors for fixed effects
                let mut beta_se = Array1::<f64>::zeros(p);
                let mut beta_z = Array1::<f64>::zeros(p);
                let mut v_beta_unscaled = Array2::<f64>::zeros((p, p));
                if let Ok(inv_lx) = l_x.inv() {
                    v_beta_unscaled = inv_lx.t().dot(&inv_lx);
                    for i in 0..p {
                        // For GLMMs without dispersion, sigma2=1
                        let var_i = v_beta_unscaled[[i, i]];
                        beta_se[i] = var_i.glmm_sqrt(); // ALTERED: of elementary_c
                        if beta_se[i] > 0.0 {
                            beta_z[i] = beta[i] / beta_se[i];
                        }
                    }
                }

                let residuals = &self.y - &mu;

                return Some(GlmmCoefficients {
                    iterations: _iter + 1,
                    effective_n_agq,
                    dispersion_converged: true,
                    deviance,
                    beta,
                    b,
                    u,
                    fitted: mu,
                    eta,
                    residuals,
                    beta_se,
                    beta_z,
                    v_beta_unscaled,
                    phi,
                });
            }

            old_pwrss = pwrss;
        }

        account::ends_as(13); // ALTERED: counted
        log::warn!("PIRLS did not converge within {} iterations", max_iter);
        None
    }

    /// Adaptive Gauss–Hermite quadrature for a **single** random-effect block.
    ///
    /// - `k = 1`: same convention as `lme4::GHrule` — `u = u_hat + σ z` with `σ = 1 / sqrt(A_{gg})`.
    /// - `k > 1`: tensor-product rules on `N(0, I_k)` with `u_quad = u_hat_block + L z`, where
    ///   `Σ = A_block^{-1}` and `L` is the lower Cholesky factor of `Σ` (block of `A` at the mode).
    ///
    /// Returns `fit_term(μ_hat) + Σ_g Q_g`. `None` triggers Laplace fallback (singular block, etc.).
    /// Deviance differences inside the quadrature are scaled by `1/φ`.
    #[allow(clippy::too_many_arguments)]
    fn agq_deviance(
        &self,
        n_agq: usize,
        a: &CsMat<f64>,
        u_hat: &Array1<f64>,
        beta: &Array1<f64>,
        lambda: &CsMat<f64>,
        offset: Option<&Array1<f64>>,
        mu_hat: &Array1<f64>,
        phi: f64,
    ) -> Option<f64> {
        let block = self.re_blocks.first()?;
        let k = block.k;
        let m = block.m;
        if u_hat.len() != m * k {
            return None;
        }

        account::why(3); // ALTERED: told, the cap leaves no order
        let order = resolve_gh_order_product(n_agq, k)?;
        let (z, w) = gh_rule(order)?;
        let n_nodes = z.len();
        let wt = self.observation_weights();
        let dev_hat = self.family.dev_resid(&self.y, mu_hat, &wt);
        let sum_dev = dev_hat.sum();
        let fit_term = self.laplace_fit_term(mu_hat, sum_dev);
        let inv_phi = 1.0 / phi.max(f64::EPSILON);

        let mut total_q = 0.0;

        if k == 1 {
            for g in 0..m {
                account::why(4); // ALTERED: told, a bad diagonal
                let a_gg = csr_diag_entry(a, g)?;
                if a_gg <= f64::EPSILON || !a_gg.is_finite() {
                    return None;
                }
                let sigma = a_gg.glmm_sqrt().recip(); // ALTERED: of elementary_c
                let u_hat_g = u_hat[g];

                let obs_idx: Vec<usize> = self
                    .zt
                    .outer_view(g)
                    .map(|row| row.iter().map(|(col, _)| col).collect())
                    .unwrap_or_default();

                let mut u_trial = u_hat.clone();
                let mut log_terms = Vec::with_capacity(n_nodes);
                for (ki, &z_k) in z.iter().enumerate() {
                    let u_quad = u_hat_g + sigma * z_k;
                    u_trial[g] = u_quad;

                    let eta = self.linear_predictor_from_u(&u_trial, beta, lambda, offset);
                    let mu = self.family.link().link_inv(&eta);
                    let dev_new = self.family.dev_resid(&self.y, &mu, &wt);

                    let mut dev_diff = 0.0;
                    for &i in &obs_idx {
                        dev_diff += dev_new[i] - dev_hat[i];
                    }
                    let u_pen = u_quad * u_quad - u_hat_g * u_hat_g;
                    let delta = -0.5 * dev_diff * inv_phi - 0.5 * u_pen;

                    log_terms.push(w[ki].glmm_ln() + delta); // ALTERED: of elementary_c
                    account::point(); // ALTERED: counted
                }

                account::why(6); // ALTERED: told, a sum that is not finite
                let log_inner = log_sum_exp(&log_terms);
                if !log_inner.is_finite() {
                    return None;
                }
                total_q += -2.0 * log_inner;
            }
        } else {
            let ncomb = n_nodes.pow(k as u32);
            for g in 0..m {
                let start = g * k;
                let a_block = csr_dense_block(a, start, k);
                account::why(5); // ALTERED: told, a failed inverse or factor
                let sigma = a_block.inv().ok()?;
                let l_sigma = sigma.cholesky(UPLO::Lower).ok()?;

                let mut obs_set = BTreeSet::new(); // ALTERED: a HashSet; ascending
                for r in start..start + k {
                    if let Some(row) = self.zt.outer_view(r) {
                        for (col, _) in row.iter() {
                            obs_set.insert(col);
                        }
                    }
                }
                let obs_idx: Vec<usize> = obs_set.into_iter().collect();

                let mut u_trial = u_hat.clone();
                let mut z_vec = Array1::<f64>::zeros(k);
                let mut u_delta = vec![0.0_f64; k];
                let mut log_terms = Vec::with_capacity(ncomb);
                for t in 0..ncomb {
                    let mut rem = t;
                    let mut log_w = 0.0_f64;
                    for dim in 0..k {
                        let idx = rem % n_nodes;
                        rem /= n_nodes;
                        z_vec[dim] = z[idx];
                        log_w += w[idx].glmm_ln(); // ALTERED: of elementary_c
                    }

                    for i in 0..k {
                        let mut s = 0.0_f64;
                        for j in 0..k {
                            s += l_sigma[[i, j]] * z_vec[j];
                        }
                        u_delta[i] = s;
                    }
                    for i in 0..k {
                        u_trial[start + i] = u_hat[start + i] + u_delta[i];
                    }

                    let eta = self.linear_predictor_from_u(&u_trial, beta, lambda, offset);
                    let mu = self.family.link().link_inv(&eta);
                    let dev_new = self.family.dev_resid(&self.y, &mu, &wt);

                    let mut dev_diff = 0.0;
                    for &i in &obs_idx {
                        dev_diff += dev_new[i] - dev_hat[i];
                    }
                    let mut u_pen = 0.0_f64;
                    for i in start..start + k {
                        u_pen += u_trial[i] * u_trial[i] - u_hat[i] * u_hat[i];
                    }
                    let delta = -0.5 * dev_diff * inv_phi - 0.5 * u_pen;

                    log_terms.push(log_w + delta);
                    account::point(); // ALTERED: counted
                }

                account::why(6); // ALTERED: told, a sum that is not finite
                let log_inner = log_sum_exp(&log_terms);
                if !log_inner.is_finite() {
                    return None;
                }
                total_q += -2.0 * log_inner;
            }
        }

        Some(fit_term + total_q)
    }

    /// Joint multivariate AGQ over the **entire** spherical vector `u` (used when `re_blocks.len() > 1` and `q` is small).
    ///
    /// This approximates `∫ φ(u) exp(ℓ(u) - ℓ*) du` with a single tensor-product rule and
    /// `u_quad = u_hat + L z`, `Σ = A^{-1}`, `L L^T = Σ` for the full `q`×`q` Hessian block.
    #[allow(clippy::too_many_arguments)]
    fn agq_deviance_joint(
        &self,
        n_agq: usize,
        a: &CsMat<f64>,
        u_hat: &Array1<f64>,
        beta: &Array1<f64>,
        lambda: &CsMat<f64>,
        offset: Option<&Array1<f64>>,
        mu_hat: &Array1<f64>,
        phi: f64,
    ) -> Option<f64> {
        let q = u_hat.len();
        if q > AGQ_JOINT_MAX_Q {
            return None;
        }

        account::why(if q == 0 { 2 } else { 3 }); // ALTERED: told, no effects, or the cap leaves no order
        let order = resolve_gh_order_joint(n_agq, q)?;
        let (z, w) = gh_rule(order)?;
        let n_nodes = z.len();
        let ncomb = n_nodes.pow(q as u32);
        let n = self.y.len();
        let wt = self.observation_weights();
        let dev_hat = self.family.dev_resid(&self.y, mu_hat, &wt);
        let sum_dev = dev_hat.sum();
        let fit_term = self.laplace_fit_term(mu_hat, sum_dev);
        let inv_phi = 1.0 / phi.max(f64::EPSILON);

        let a_dense = csr_dense_block(a, 0, q);
        account::why(5); // ALTERED: told, a failed inverse or factor
        let sigma = a_dense.inv().ok()?;
        let l_sigma = sigma.cholesky(UPLO::Lower).ok()?;

        let u_hat_sq_sum: f64 = u_hat.dot(u_hat); // ALTERED: an iterator's sum, which in newer Rust starts at -0.0
        let mut z_vec = vec![0.0_f64; q];
        let mut u_delta = vec![0.0_f64; q];
        let mut u_trial = u_hat.clone();
        let mut log_terms = Vec::with_capacity(ncomb);
        for t in 0..ncomb {
            let mut rem = t;
            let mut log_w = 0.0_f64;
            for z_slot in z_vec.iter_mut() {
                let idx = rem % n_nodes;
                rem /= n_nodes;
                *z_slot = z[idx];
                log_w += w[idx].glmm_ln(); // ALTERED: of elementary_c
            }

            for i in 0..q {
                let mut s = 0.0_f64;
                for j in 0..q {
                    s += l_sigma[[i, j]] * z_vec[j];
                }
                u_delta[i] = s;
            }

            for i in 0..q {
                u_trial[i] = u_hat[i] + u_delta[i];
            }

            let eta = self.linear_predictor_from_u(&u_trial, beta, lambda, offset);
            let mu = self.family.link().link_inv(&eta);
            let dev_new = self.family.dev_resid(&self.y, &mu, &wt);

            let mut dev_diff = 0.0;
            for i in 0..n {
                dev_diff += dev_new[i] - dev_hat[i];
            }
            let u_trial_sq_sum: f64 = u_trial.dot(&u_trial); // ALTERED: an iterator's sum, which in newer Rust starts at -0.0
            let u_pen = u_trial_sq_sum - u_hat_sq_sum;
            let delta = -0.5 * dev_diff * inv_phi - 0.5 * u_pen;

            log_terms.push(log_w + delta);
            account::point(); // ALTERED: counted
        }

        account::why(6); // ALTERED: told, a sum that is not finite
        let log_inner = log_sum_exp(&log_terms);
        if !log_inner.is_finite() {
            return None;
        }
        let total_q = -2.0 * log_inner;
        Some(fit_term + total_q)
    }

    fn linear_predictor_from_u(
        &self,
        u: &Array1<f64>,
        beta: &Array1<f64>,
        lambda: &CsMat<f64>,
        offset: Option<&Array1<f64>>,
    ) -> Array1<f64> {
        let q = self.zt.rows();
        let mut b = Array1::<f64>::zeros(q);
        for (val, (row, col)) in lambda.iter() {
            b[row] += val * u[col];
        }
        let n = self.y.len();
        let mut z_b = vec![0.0f64; n];
        for (j, row_vec) in self.zt.outer_iterator().enumerate() {
            for (i, &val) in row_vec.iter() {
                z_b[i] += val * b[j];
            }
        }
        let mut eta = self.x.dot(beta) + Array1::from_vec(z_b);
        if let Some(off) = offset {
            eta += off;
        }
        eta
    }

    /// Build the sparse Lambda matrix from theta (identical to LMM logic).
    fn build_lambda(&self, theta: &[f64], q: usize) -> CsMat<f64> {
        let mut lam_tri = TriMat::new((q, q));
        let mut row_offset = 0;
        let mut theta_offset = 0;

        for block in &self.re_blocks {
            let m = block.m;
            let k = block.k;

            for group in 0..m {
                let offset = row_offset + group * k;
                let mut idx = 0;
                for j in 0..k {
                    for i in j..k {
                        lam_tri.add_triplet(offset + i, offset + j, theta[theta_offset + idx]);
                        idx += 1;
                    }
                }
            }
            row_offset += m * k;
            theta_offset += block.theta_len;
        }

        lam_tri.to_csr()
    }
}

// ALTERED: _sparse_times_dense, which nothing calls, is left out.
