//! The elementary functions of `elementary_c`, by C linkage: total functions, safe to call with any number.
//! The carried text calls them as methods; a `f64` has methods of its own called `exp` and `ln`, so these have other names.

extern "C" {
    fn glmm_exp(x: f64) -> f64;
    fn glmm_exp_m1(x: f64) -> f64;
    fn glmm_ln(x: f64) -> f64;
    fn glmm_ln_1p(x: f64) -> f64;
    fn glmm_ln_gamma(x: f64) -> f64;
    fn glmm_norm_cdf(x: f64) -> f64;
    fn glmm_norm_pdf(x: f64) -> f64;
    fn glmm_norm_quantile(p: f64) -> f64;
    fn glmm_sqrt(x: f64) -> f64;
}

pub(crate) trait Elementary {
    fn glmm_exp(self) -> f64;
    fn glmm_exp_m1(self) -> f64;
    fn glmm_ln(self) -> f64;
    fn glmm_ln_1p(self) -> f64;
    fn glmm_ln_gamma(self) -> f64;
    fn glmm_norm_cdf(self) -> f64;
    fn glmm_norm_pdf(self) -> f64;
    fn glmm_norm_quantile(self) -> f64;
    fn glmm_sqrt(self) -> f64;
}

impl Elementary for f64 {
    fn glmm_exp(self) -> f64 {
        unsafe { glmm_exp(self) }
    }

    fn glmm_exp_m1(self) -> f64 {
        unsafe { glmm_exp_m1(self) }
    }

    fn glmm_ln(self) -> f64 {
        unsafe { glmm_ln(self) }
    }

    fn glmm_ln_1p(self) -> f64 {
        unsafe { glmm_ln_1p(self) }
    }

    fn glmm_ln_gamma(self) -> f64 {
        unsafe { glmm_ln_gamma(self) }
    }

    fn glmm_norm_cdf(self) -> f64 {
        unsafe { glmm_norm_cdf(self) }
    }

    fn glmm_norm_pdf(self) -> f64 {
        unsafe { glmm_norm_pdf(self) }
    }

    fn glmm_norm_quantile(self) -> f64 {
        unsafe { glmm_norm_quantile(self) }
    }

    fn glmm_sqrt(self) -> f64 {
        unsafe { glmm_sqrt(self) }
    }
}
