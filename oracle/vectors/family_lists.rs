//! `cases_family_lists`: the values by the Rust's own family.rs. The numbers 0 and 2, and what a refused or empty list leaves, are
//! document 01's: the Rust does not compare lengths. Absent weights are the Rust's ones.
use super::line;
use crate::answer::hex;
use crate::family::{Family, GlmLink, Link};
use crate::ndarray::Array1;

const NAN: f64 = f64::NAN;
const INF: f64 = f64::INFINITY;
const DEVIANCES: [f64; 11] = [NAN, INF, -INF, 0.0, -0.0, -1.0, 5e-324, 0.1, 0.7, 10.0, 1e308];

fn list(xs: &[f64]) -> Array1<f64> {
    Array1::from_vec(xs.to_vec())
}

fn put_aic(family: Family, y: &[f64], mu: &[f64], wt: &[f64], dev: f64) {
    print!(" 0 {}", hex(family.build().aic(&list(y), &list(mu), &list(wt), dev)));
}

fn aics(dev: f64) {
    let (y, mu) = ([1.0, 2.0, 3.0], [1.5, 1.5, 2.5]);
    print!("aic {}", hex(dev));
    // the first weights are absent
    let weights = [[1.0; 3], [1.0; 3], [0.5, 3.0, 0.0], [-2.0, NAN, 7.0], [1e-300, 1e300, INF]];
    for wt in weights {
        put_aic(Family::Gaussian, &y, &mu, &wt, dev);
    }
    print!(" 2");
    put_aic(Family::Binomial, &[1.0], &[1.5], &[2.0], dev);
    put_aic(Family::Poisson, &[1.0], &[1.5], &[1.0], dev);
    put_aic(Family::Gaussian, &[], &[], &[], dev);
    println!(" 2");
}

fn gamma_aics(dev: f64) {
    let (y, mu) = ([1.0, 2.0, 3.0], [1.5, 1.5, 2.5]);
    let put = |y: &[f64], mu: &[f64], wt: &[f64]| put_aic(Family::Gamma, y, mu, wt, dev);
    print!("gamma {}", hex(dev));
    // the first weights are absent
    let weights = [
        [1.0; 3],
        [1.0; 3],
        [0.5, 3.0, 0.0],
        [-2.0, NAN, 7.0],
        [1e-300, 1e300, INF],
        [1e-300, 1e-300, 0.0],
        [1.0, -2.0, 1.0],
    ];
    for wt in weights {
        put(&y, &mu, &wt);
    }
    print!(" 2");
    put(&[1.0, 0.0, 3.0], &mu, &[1.0; 3]);
    put(&[1.0, NAN, 3.0], &mu, &[1.0; 3]);
    put(&[1.0, NAN, 3.0], &mu, &[1.0, 0.0, 1.0]);
    put(&[1.0, -2.0, 3.0], &mu, &[2.0, -1.0, 1.0]);
    put(&[1e-300, 2.0, 3.0], &mu, &[1.0; 3]);
    put(&y, &[NAN, -1.0, 0.0], &[1.0; 3]);
    put(&[], &[], &[]);
    println!(" 2");
}

pub fn put() {
    for dev in DEVIANCES {
        aics(dev);
    }
    for dev in DEVIANCES {
        gamma_aics(dev);
    }
    let x = list(&[0.25, 0.5, NAN]);
    let put_list = |made: Array1<f64>| line("list 0", made.iter().copied());
    put_list(Link::Logit.link_fun(&x));
    put_list(Link::Cloglog.link_inv(&x));
    put_list(Link::Inverse.mu_eta(&x));
    put_list(Family::Binomial.build().variance(&x));
    put_list(Family::Poisson.build().initialize_mu(&x));
    put_list(Family::Gamma.build().variance(&x));
    put_list(Family::Gamma.build().initialize_mu(&x));
    for wt in [[2.0, 3.0, 4.0], [1.0; 3]] {
        put_list(Family::Binomial.build().dev_resid(&x, &list(&[0.4; 3]), &list(&wt)));
    }
    for wt in [[2.0, 3.0, 4.0], [1.0; 3]] {
        put_list(Family::Gamma.build().dev_resid(&x, &list(&[0.4; 3]), &list(&wt)));
    }
    for calls in [3, 3, 2, 1, 1, 1, 1] {
        line(&format!("refused{}", " 2".repeat(calls)), [9.0, 8.0, 7.0]);
    }
    println!("empty 0 0 0\nempty 0 0 0");
}
