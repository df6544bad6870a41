//! Stand-in for what the carried text calls of statrs: log-gamma and the standard normal distribution are those of `elementary_c`.
pub mod distribution {
    use crate::elementary::Elementary;

    /// The standard one: the carried text asks for no other.
    pub struct Normal;

    impl Normal {
        pub fn new(mean: f64, sd: f64) -> Result<Normal, ()> {
            if mean == 0.0 && sd == 1.0 {
                Ok(Normal)
            } else {
                Err(())
            }
        }
    }

    pub trait Continuous {
        fn pdf(&self, x: f64) -> f64;
    }

    pub trait ContinuousCDF {
        fn cdf(&self, x: f64) -> f64;
        fn inverse_cdf(&self, p: f64) -> f64;
    }

    impl Continuous for Normal {
        fn pdf(&self, x: f64) -> f64 {
            x.glmm_norm_pdf()
        }
    }

    impl ContinuousCDF for Normal {
        fn cdf(&self, x: f64) -> f64 {
            x.glmm_norm_cdf()
        }

        fn inverse_cdf(&self, p: f64) -> f64 {
            p.glmm_norm_quantile()
        }
    }
}

pub mod function {
    pub mod gamma {
        use crate::elementary::Elementary;

        pub fn ln_gamma(x: f64) -> f64 {
            x.glmm_ln_gamma()
        }
    }
}
