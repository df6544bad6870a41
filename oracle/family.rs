//! Family/Link abstractions for Generalized Linear Mixed Models (GLMMs).
//!
//! This module implements the GLM family/link system matching R's `stats::family` interface.
//! Each family specifies a variance function, deviance residuals, and a canonical link function.
//! Each link function provides forward/inverse transformations and the derivative of the inverse.

use crate::elementary::Elementary; // ALTERED: added, exp, ln, ln_1p, exp_m1 and sqrt of elementary_c
use crate::{ndarray, statrs}; // ALTERED: added, the stand-ins
use ndarray::Array1;

// ─── Link Trait ────────────────────────────────────────────────────────────────

/// A link function mapping between the linear predictor η and the mean μ.
///
/// Every link must provide three operations:
/// - `link_fun`: μ → η  
/// - `link_inv`: η → μ (the inverse link / mean function)
/// - `mu_eta`:   η → dμ/dη (derivative of inverse link, for IRLS weights)
pub trait GlmLink: std::fmt::Debug + Send + Sync {
    /// Map mean to linear predictor: η = g(μ)
    fn link_fun(&self, mu: &Array1<f64>) -> Array1<f64>;
    /// Map linear predictor to mean: μ = g⁻¹(η)
    fn link_inv(&self, eta: &Array1<f64>) -> Array1<f64>;
    /// Derivative of inverse link: dμ/dη
    fn mu_eta(&self, eta: &Array1<f64>) -> Array1<f64>;
    /// Name of the link for display purposes
    fn name(&self) -> &str;
}

// ─── Family Trait ──────────────────────────────────────────────────────────────

/// A GLM distribution family providing variance function and deviance residuals.
pub trait GlmFamily: std::fmt::Debug + Send + Sync {
    /// Variance function V(μ); relates variance to the mean.
    fn variance(&self, mu: &Array1<f64>) -> Array1<f64>;
    /// Unit deviance residual contributions: d(y, μ) for each observation.
    fn dev_resid(&self, y: &Array1<f64>, mu: &Array1<f64>, wt: &Array1<f64>) -> Array1<f64>;
    /// The canonical link for this family.
    fn link(&self) -> &dyn GlmLink;
    /// Name of the family for display purposes
    fn name(&self) -> &str;
    /// Whether this family uses a dispersion parameter (sigma²).  
    /// Gaussian: true, Binomial/Poisson: false.
    fn uses_dispersion(&self) -> bool;
    /// R `family$aic()` value used by lme4's Laplace objective.
    ///
    /// For families with a free dispersion this includes a `+2` bookkeeping
    /// constant (the dispersion's own AIC penalty). The GLMM Laplace
    /// approximation subtracts that `2` again, matching `glmResp::Laplace`.
    fn aic(&self, y: &Array1<f64>, mu: &Array1<f64>, wt: &Array1<f64>, dev: f64) -> f64 {
        let _ = (y, mu, wt);
        dev
    }
    /// Initialize mu from y (provides sensible starting values).
    fn initialize_mu(&self, y: &Array1<f64>) -> Array1<f64>;
    /// Create a new boxed clone of this family (needed for optimizer cloning).
    fn build_clone(&self) -> Box<dyn GlmFamily>;
}

// ─── Link Implementations ──────────────────────────────────────────────────────

/// Logit link: η = log(μ / (1 - μ)), canonical for Binomial.
#[derive(Debug, Clone)]
pub struct LogitLink;

impl GlmLink for LogitLink {
    fn link_fun(&self, mu: &Array1<f64>) -> Array1<f64> {
        mu.mapv(|m| {
            // Clamp to avoid log(0)
            let m = m.clamp(f64::EPSILON, 1.0 - f64::EPSILON);
            (m / (1.0 - m)).glmm_ln() // ALTERED: of elementary_c
        })
    }

    fn link_inv(&self, eta: &Array1<f64>) -> Array1<f64> {
        eta.mapv(|e| {
            let p = 1.0 / (1.0 + (-e).glmm_exp()); // ALTERED: of elementary_c
            // Clamp to valid probability range
            p.clamp(f64::EPSILON, 1.0 - f64::EPSILON)
        })
    }

    fn mu_eta(&self, eta: &Array1<f64>) -> Array1<f64> {
        eta.mapv(|e| {
            let p = 1.0 / (1.0 + (-e).glmm_exp()); // ALTERED: of elementary_c
            let d = p * (1.0 - p);
            // Clamp derivative away from zero for numerical stability
            d.max(f64::EPSILON)
        })
    }

    fn name(&self) -> &str {
        "logit"
    }
}

/// Log link: η = log(μ), canonical for Poisson.
#[derive(Debug, Clone)]
pub struct LogLink;

impl GlmLink for LogLink {
    fn link_fun(&self, mu: &Array1<f64>) -> Array1<f64> {
        mu.mapv(f64::glmm_ln) // ALTERED: of elementary_c
    }

    fn link_inv(&self, eta: &Array1<f64>) -> Array1<f64> {
        eta.mapv(f64::glmm_exp) // ALTERED: of elementary_c
    }

    fn mu_eta(&self, eta: &Array1<f64>) -> Array1<f64> {
        // dμ/dη = exp(η) (same as link_inv for log link)
        eta.mapv(f64::glmm_exp) // ALTERED: of elementary_c
    }

    fn name(&self) -> &str {
        "log"
    }
}

/// Identity link: η = μ, canonical for Gaussian.
#[derive(Debug, Clone)]
pub struct IdentityLink;

impl GlmLink for IdentityLink {
    fn link_fun(&self, mu: &Array1<f64>) -> Array1<f64> {
        mu.clone()
    }

    fn link_inv(&self, eta: &Array1<f64>) -> Array1<f64> {
        eta.clone()
    }

    fn mu_eta(&self, eta: &Array1<f64>) -> Array1<f64> {
        Array1::ones(eta.len())
    }

    fn name(&self) -> &str {
        "identity"
    }
}

/// Probit link: η = Φ⁻¹(μ), alternative for Binomial.
///
/// Uses the standard normal CDF (Φ) and its inverse (Φ⁻¹).
#[derive(Debug, Clone)]
pub struct ProbitLink;

impl GlmLink for ProbitLink {
    fn link_fun(&self, mu: &Array1<f64>) -> Array1<f64> {
        use statrs::distribution::{ContinuousCDF, Normal};
        let n = Normal::new(0.0, 1.0).unwrap();
        mu.mapv(|m| {
            let m = m.clamp(f64::EPSILON, 1.0 - f64::EPSILON);
            n.inverse_cdf(m)
        })
    }

    fn link_inv(&self, eta: &Array1<f64>) -> Array1<f64> {
        use statrs::distribution::{ContinuousCDF, Normal};
        let n = Normal::new(0.0, 1.0).unwrap();
        eta.mapv(|e| {
            let p = n.cdf(e);
            p.clamp(f64::EPSILON, 1.0 - f64::EPSILON)
        })
    }

    fn mu_eta(&self, eta: &Array1<f64>) -> Array1<f64> {
        use statrs::distribution::{Continuous, Normal};
        let n = Normal::new(0.0, 1.0).unwrap();
        eta.mapv(|e| n.pdf(e).max(f64::EPSILON))
    }

    fn name(&self) -> &str {
        "probit"
    }
}

/// Complementary log-log link: η = log(-log(1 - μ)), alternative for Binomial.
#[derive(Debug, Clone)]
pub struct CloglogLink;

impl GlmLink for CloglogLink {
    fn link_fun(&self, mu: &Array1<f64>) -> Array1<f64> {
        mu.mapv(|m| {
            let m = m.clamp(f64::EPSILON, 1.0 - f64::EPSILON);
            (-(-m).glmm_ln_1p()).glmm_ln() // ALTERED: of elementary_c
        })
    }

    fn link_inv(&self, eta: &Array1<f64>) -> Array1<f64> {
        eta.mapv(|e| {
            let p = -(-e.glmm_exp()).glmm_exp_m1(); // ALTERED: of elementary_c
            p.clamp(f64::EPSILON, 1.0 - f64::EPSILON)
        })
    }

    fn mu_eta(&self, eta: &Array1<f64>) -> Array1<f64> {
        eta.mapv(|e| {
            let exp_e = e.glmm_exp(); // ALTERED: of elementary_c
            let d = if exp_e.is_infinite() {
                0.0
            } else {
                exp_e * (-exp_e).glmm_exp() // ALTERED: of elementary_c
            };
            d.max(f64::EPSILON)
        })
    }

    fn name(&self) -> &str {
        "cloglog"
    }
}

/// Inverse link: η = 1/μ, canonical for Gamma.
#[derive(Debug, Clone)]
pub struct InverseLink;

impl GlmLink for InverseLink {
    fn link_fun(&self, mu: &Array1<f64>) -> Array1<f64> {
        mu.mapv(|m| 1.0 / m.max(f64::EPSILON))
    }

    fn link_inv(&self, eta: &Array1<f64>) -> Array1<f64> {
        eta.mapv(|e| 1.0 / e.max(f64::EPSILON))
    }

    fn mu_eta(&self, eta: &Array1<f64>) -> Array1<f64> {
        // dμ/dη = -1/η²
        eta.mapv(|e| {
            let e = e.max(f64::EPSILON);
            -(1.0 / (e * e)).max(f64::EPSILON)
        })
    }

    fn name(&self) -> &str {
        "inverse"
    }
}

/// Square root link: η = √μ, alternative for Poisson.
#[derive(Debug, Clone)]
pub struct SqrtLink;

impl GlmLink for SqrtLink {
    fn link_fun(&self, mu: &Array1<f64>) -> Array1<f64> {
        mu.mapv(|m| (m.max(0.0) + 0.0).glmm_sqrt()) // ALTERED: of elementary_c; + 0.0, since max leaves the sign of -0.0 open
    }

    fn link_inv(&self, eta: &Array1<f64>) -> Array1<f64> {
        eta.mapv(|e| {
            let e = e.max(0.0);
            e * e
        })
    }

    fn mu_eta(&self, eta: &Array1<f64>) -> Array1<f64> {
        // dμ/dη = 2η
        eta.mapv(|e| (2.0 * e.max(0.0)).max(f64::EPSILON))
    }

    fn name(&self) -> &str {
        "sqrt"
    }
}

// ─── Public link selector ─────────────────────────────────────────────────────

/// User-facing link selector for [`Family::build_with_link`](Family::build_with_link) and
/// [`glmer_with_link`](crate::glmer_with_link).
#[derive(Debug, Clone, Copy, PartialEq, Eq)]
pub enum Link {
    /// Logit: η = log(μ / (1 − μ)). Default for binomial.
    Logit,
    /// Probit: η = Φ⁻¹(μ). Binomial alternative.
    Probit,
    /// Complementary log-log. Binomial alternative.
    Cloglog,
    /// Log: η = log(μ). Default for Poisson; valid for Gaussian and Gamma.
    Log,
    /// Identity: η = μ. Default for Gaussian.
    Identity,
    /// Inverse: η = 1/μ. Default for Gamma.
    Inverse,
    /// Square root: η = √μ. Poisson alternative.
    Sqrt,
}

impl Link {
    /// Parse a link name (case-insensitive), matching R `family(link = ...)` strings.
    pub fn parse(s: &str) -> crate::Result<Self> {
        match s.trim().to_lowercase().as_str() {
            "logit" => Ok(Link::Logit),
            "probit" => Ok(Link::Probit),
            "cloglog" => Ok(Link::Cloglog),
            "log" => Ok(Link::Log),
            "identity" => Ok(Link::Identity),
            "inverse" => Ok(Link::Inverse),
            "sqrt" => Ok(Link::Sqrt),
            other => Err(crate::LmeError::NotImplemented {
                feature: format!("unknown link '{other}'"),
            }),
        }
    }

    /// Canonical link for a [`Family`].
    pub fn default_for(family: Family) -> Self {
        match family {
            Family::Binomial => Link::Logit,
            Family::Poisson => Link::Log,
            Family::Gaussian => Link::Identity,
            Family::Gamma => Link::Inverse,
        }
    }

    /// Whether this link is valid for the given family (R `family()` compatibility).
    pub fn valid_for(self, family: Family) -> bool {
        matches!(
            (family, self),
            (Family::Binomial, Link::Logit | Link::Probit | Link::Cloglog)
                | (Family::Poisson, Link::Log | Link::Identity | Link::Sqrt)
                | (Family::Gaussian, Link::Identity | Link::Log | Link::Inverse)
                | (Family::Gamma, Link::Inverse | Link::Identity | Link::Log)
        )
    }

    /// Short name for display and serialization (e.g. `"logit"`).
    pub fn name(self) -> &'static str {
        match self {
            Link::Logit => "logit",
            Link::Probit => "probit",
            Link::Cloglog => "cloglog",
            Link::Log => "log",
            Link::Identity => "identity",
            Link::Inverse => "inverse",
            Link::Sqrt => "sqrt",
        }
    }
}

impl GlmLink for Link {
    fn link_fun(&self, mu: &Array1<f64>) -> Array1<f64> {
        match self {
            Link::Logit => LogitLink.link_fun(mu),
            Link::Probit => ProbitLink.link_fun(mu),
            Link::Cloglog => CloglogLink.link_fun(mu),
            Link::Log => LogLink.link_fun(mu),
            Link::Identity => IdentityLink.link_fun(mu),
            Link::Inverse => InverseLink.link_fun(mu),
            Link::Sqrt => SqrtLink.link_fun(mu),
        }
    }

    fn link_inv(&self, eta: &Array1<f64>) -> Array1<f64> {
        match self {
            Link::Logit => LogitLink.link_inv(eta),
            Link::Probit => ProbitLink.link_inv(eta),
            Link::Cloglog => CloglogLink.link_inv(eta),
            Link::Log => LogLink.link_inv(eta),
            Link::Identity => IdentityLink.link_inv(eta),
            Link::Inverse => InverseLink.link_inv(eta),
            Link::Sqrt => SqrtLink.link_inv(eta),
        }
    }

    fn mu_eta(&self, eta: &Array1<f64>) -> Array1<f64> {
        match self {
            Link::Logit => LogitLink.mu_eta(eta),
            Link::Probit => ProbitLink.mu_eta(eta),
            Link::Cloglog => CloglogLink.mu_eta(eta),
            Link::Log => LogLink.mu_eta(eta),
            Link::Identity => IdentityLink.mu_eta(eta),
            Link::Inverse => InverseLink.mu_eta(eta),
            Link::Sqrt => SqrtLink.mu_eta(eta),
        }
    }

    fn name(&self) -> &str {
        Link::name(*self)
    }
}

// ─── Family Implementations ───────────────────────────────────────────────────

/// Binomial family (default link: logit).
#[derive(Debug, Clone, Copy)]
pub struct BinomialFamily {
    link: Link,
}

impl BinomialFamily {
    /// Create a binomial family with the given link.
    pub fn with_link(link: Link) -> Self {
        BinomialFamily { link }
    }

    /// Create a new Binomial family with a logit link.
    pub fn new() -> Self {
        Self::with_link(Link::Logit)
    }
}

impl Default for BinomialFamily {
    fn default() -> Self {
        Self::new()
    }
}

impl GlmFamily for BinomialFamily {
    fn variance(&self, mu: &Array1<f64>) -> Array1<f64> {
        mu.mapv(|m| {
            let m = m.clamp(f64::EPSILON, 1.0 - f64::EPSILON);
            m * (1.0 - m)
        })
    }

    fn dev_resid(&self, y: &Array1<f64>, mu: &Array1<f64>, wt: &Array1<f64>) -> Array1<f64> {
        // 2 * wt * [ y*ln(y/mu) + (1-y)*ln((1-y)/(1-mu)) ]
        // with boundary handling for y=0 and y=1
        let n = y.len();
        let mut d = Array1::zeros(n);
        for i in 0..n {
            let yi = y[i];
            if !(0.0..=1.0).contains(&yi) {
                d[i] = f64::NAN;
                continue;
            }
            let mi = mu[i].clamp(f64::EPSILON, 1.0 - f64::EPSILON);
            let wi = wt[i];
            let mut dev_i = 0.0;
            if yi > 0.0 {
                dev_i += yi * (yi / mi).glmm_ln(); // ALTERED: of elementary_c
            }
            if yi < 1.0 {
                dev_i += (1.0 - yi) * ((1.0 - yi) / (1.0 - mi)).glmm_ln(); // ALTERED: of elementary_c
            }
            d[i] = 2.0 * wi * dev_i;
        }
        d
    }

    fn link(&self) -> &dyn GlmLink {
        &self.link
    }
    fn name(&self) -> &str {
        "binomial"
    }
    fn uses_dispersion(&self) -> bool {
        false
    }

    fn initialize_mu(&self, y: &Array1<f64>) -> Array1<f64> {
        // R's binomial()$initialize: mu = (y + 0.5) / 2
        y.mapv(|yi| (yi + 0.5) / 2.0)
    }

    fn build_clone(&self) -> Box<dyn GlmFamily> {
        Box::new(BinomialFamily::with_link(self.link))
    }
}

/// Poisson family (default link: log).
#[derive(Debug, Clone, Copy)]
pub struct PoissonFamily {
    link: Link,
}

impl PoissonFamily {
    /// Create a Poisson family with the given link.
    pub fn with_link(link: Link) -> Self {
        PoissonFamily { link }
    }

    /// Create a new Poisson family with a log link.
    pub fn new() -> Self {
        Self::with_link(Link::Log)
    }
}

impl Default for PoissonFamily {
    fn default() -> Self {
        Self::new()
    }
}

impl GlmFamily for PoissonFamily {
    fn variance(&self, mu: &Array1<f64>) -> Array1<f64> {
        // V(mu) = mu for Poisson
        mu.mapv(|m| m.max(f64::EPSILON))
    }

    fn dev_resid(&self, y: &Array1<f64>, mu: &Array1<f64>, wt: &Array1<f64>) -> Array1<f64> {
        // 2 * wt * [ y*ln(y/mu) - (y - mu) ]
        let n = y.len();
        let mut d = Array1::zeros(n);
        for i in 0..n {
            let yi = y[i];
            if yi < 0.0 {
                d[i] = f64::NAN;
                continue;
            }
            let mi = mu[i].max(f64::EPSILON);
            let wi = wt[i];
            let mut dev_i = -(yi - mi);
            if yi > 0.0 {
                dev_i += yi * (yi / mi).glmm_ln(); // ALTERED: of elementary_c
            }
            d[i] = 2.0 * wi * dev_i;
        }
        d
    }

    fn link(&self) -> &dyn GlmLink {
        &self.link
    }
    fn name(&self) -> &str {
        "poisson"
    }
    fn uses_dispersion(&self) -> bool {
        false
    }

    fn initialize_mu(&self, y: &Array1<f64>) -> Array1<f64> {
        // R's poisson()$initialize: mu = y + 0.1
        y.mapv(|yi| yi + 0.1)
    }

    fn build_clone(&self) -> Box<dyn GlmFamily> {
        Box::new(PoissonFamily::with_link(self.link))
    }
}

/// Gaussian family (default link: identity).
#[derive(Debug, Clone, Copy)]
pub struct GaussianFamily {
    link: Link,
}

impl GaussianFamily {
    /// Create a Gaussian family with the given link.
    pub fn with_link(link: Link) -> Self {
        GaussianFamily { link }
    }

    /// Create a new Gaussian family with an identity link.
    pub fn new() -> Self {
        Self::with_link(Link::Identity)
    }
}

impl Default for GaussianFamily {
    fn default() -> Self {
        Self::new()
    }
}

impl GlmFamily for GaussianFamily {
    fn variance(&self, mu: &Array1<f64>) -> Array1<f64> {
        Array1::ones(mu.len())
    }

    fn dev_resid(&self, y: &Array1<f64>, mu: &Array1<f64>, wt: &Array1<f64>) -> Array1<f64> {
        // wt * (y - mu)^2
        let diff = y - mu;
        wt * &(&diff * &diff)
    }

    fn link(&self) -> &dyn GlmLink {
        &self.link
    }
    fn name(&self) -> &str {
        "gaussian"
    }
    fn uses_dispersion(&self) -> bool {
        true
    }

    fn aic(&self, y: &Array1<f64>, _mu: &Array1<f64>, wt: &Array1<f64>, dev: f64) -> f64 {
        // R gaussian()$aic: n (log(2π * dev/n) + 1) - sum(log(wt)) + 2
        let n = y.len() as f64;
        if n <= 0.0 || !dev.is_finite() || dev <= 0.0 {
            return f64::INFINITY;
        }
        let mut log_wt = 0.0;
        for &wi in wt {
            if wi > 0.0 {
                log_wt += wi.glmm_ln(); // ALTERED: of elementary_c
            }
        }
        n * ((2.0 * std::f64::consts::PI * dev / n).glmm_ln() + 1.0) + 2.0 - log_wt // ALTERED: of elementary_c
    }

    fn initialize_mu(&self, y: &Array1<f64>) -> Array1<f64> {
        y.clone()
    }

    fn build_clone(&self) -> Box<dyn GlmFamily> {
        Box::new(GaussianFamily::with_link(self.link))
    }
}

/// Gamma family (default link: inverse).
#[derive(Debug, Clone, Copy)]
pub struct GammaFamily {
    link: Link,
}

impl GammaFamily {
    /// Create a Gamma family with the given link.
    pub fn with_link(link: Link) -> Self {
        GammaFamily { link }
    }

    /// Create a new Gamma family with an inverse link.
    pub fn new() -> Self {
        Self::with_link(Link::Inverse)
    }
}

impl Default for GammaFamily {
    fn default() -> Self {
        Self::new()
    }
}

impl GlmFamily for GammaFamily {
    fn variance(&self, mu: &Array1<f64>) -> Array1<f64> {
        // V(mu) = mu^2 for Gamma
        mu.mapv(|m| {
            let m = m.max(f64::EPSILON);
            m * m
        })
    }

    fn dev_resid(&self, y: &Array1<f64>, mu: &Array1<f64>, wt: &Array1<f64>) -> Array1<f64> {
        // 2 * wt * [ -log(y/mu) + (y - mu)/mu ]
        let n = y.len();
        let mut d = Array1::zeros(n);
        for i in 0..n {
            let yi = y[i];
            if yi <= 0.0 {
                d[i] = f64::NAN;
                continue;
            }
            let yi_clamped = yi.max(f64::EPSILON);
            let mi = mu[i].max(f64::EPSILON);
            let wi = wt[i];
            d[i] = 2.0 * wi * (-(yi_clamped / mi).glmm_ln() + (yi_clamped - mi) / mi); // ALTERED: of elementary_c
        }
        d
    }

    fn link(&self) -> &dyn GlmLink {
        &self.link
    }
    fn name(&self) -> &str {
        "Gamma"
    }
    fn uses_dispersion(&self) -> bool {
        true
    }

    fn aic(&self, y: &Array1<f64>, mu: &Array1<f64>, wt: &Array1<f64>, dev: f64) -> f64 {
        // R Gamma()$aic: -2 Σ wt log dgamma(y, 1/φ, scale = μ φ) + 2, φ = dev / Σ wt
        let n = wt.sum();
        if n <= 0.0 || !dev.is_finite() || dev <= 0.0 {
            return f64::INFINITY;
        }
        let disp = (dev / n).max(f64::EPSILON);
        let shape = 1.0 / disp;
        let mut ans = 0.0;
        for i in 0..y.len() {
            let scale = mu[i].max(f64::EPSILON) * disp;
            ans += wt[i] * ln_dgamma(y[i], shape, scale);
        }
        -2.0 * ans + 2.0
    }

    fn initialize_mu(&self, y: &Array1<f64>) -> Array1<f64> {
        // R's Gamma()$initialize: mu = y (clamped away from zero)
        y.mapv(|yi| yi.max(f64::EPSILON))
    }

    fn build_clone(&self) -> Box<dyn GlmFamily> {
        Box::new(GammaFamily::with_link(self.link))
    }
}

/// Log-density of a Gamma(`shape`, `scale`) observation. Matches R `dgamma(..., log = TRUE)`.
pub fn ln_dgamma(y: f64, shape: f64, scale: f64) -> f64 { // ALTERED: pub, for the test program
    if !(y > 0.0 && shape > 0.0 && scale > 0.0) {
        return f64::NEG_INFINITY;
    }
    -statrs::function::gamma::ln_gamma(shape) - shape * scale.glmm_ln() + (shape - 1.0) * y.glmm_ln() // ALTERED: of elementary_c
        - y / scale
}

// ─── Public Dispatch Enum ──────────────────────────────────────────────────────

/// User-facing family selector for `glmer()`.
#[derive(Debug, Clone, Copy, PartialEq, Eq)]
pub enum Family {
    /// Binomial response with logit link (for binary / proportion data).
    Binomial,
    /// Poisson response with log link (for count data).
    Poisson,
    /// Gaussian response with identity link (equivalent to `lmer()`).
    Gaussian,
    /// Gamma response with inverse link (for positive continuous data).
    Gamma,
}

impl Family {
    /// Create the concrete family implementation with its canonical link.
    pub fn build(&self) -> Box<dyn GlmFamily> {
        self.build_with_link(Link::default_for(*self))
            .expect("canonical link is always valid")
    }

    /// Create the family with an explicit link function.
    pub fn build_with_link(&self, link: Link) -> crate::Result<Box<dyn GlmFamily>> {
        if !link.valid_for(*self) {
            return Err(crate::LmeError::NotImplemented {
                feature: format!("link '{}' is not valid for family '{}'", link.name(), self),
            });
        }
        Ok(match self {
            Family::Binomial => Box::new(BinomialFamily::with_link(link)),
            Family::Poisson => Box::new(PoissonFamily::with_link(link)),
            Family::Gaussian => Box::new(GaussianFamily::with_link(link)),
            Family::Gamma => Box::new(GammaFamily::with_link(link)),
        })
    }
}

impl std::fmt::Display for Family {
    fn fmt(&self, f: &mut std::fmt::Formatter<'_>) -> std::fmt::Result {
        match self {
            Family::Binomial => write!(f, "binomial"),
            Family::Poisson => write!(f, "poisson"),
            Family::Gaussian => write!(f, "gaussian"),
            Family::Gamma => write!(f, "Gamma"),
        }
    }
}

// ─── Tests ─────────────────────────────────────────────────────────────────────

