//! `cases_family`, by the Rust's own family.rs.
use super::{line, one, SPECIAL};
use crate::answer::hex;
use crate::family::{ln_dgamma, Family, GlmLink, Link};
use crate::job::in_range;

/// In the order of their codes.
pub const LINKS: [Link; 7] =
    [Link::Logit, Link::Probit, Link::Cloglog, Link::Log, Link::Identity, Link::Inverse, Link::Sqrt];
pub const FAMILIES: [Family; 4] = [Family::Binomial, Family::Poisson, Family::Gaussian, Family::Gamma];

const E: f64 = f64::EPSILON;
const NAN: f64 = f64::NAN;
const INF: f64 = f64::INFINITY;

/// The neighbours of 1 and E; then ordinary means and predictors, and where the formulas turn.
const NEIGHBOURS: [u64; 4] = [0x3FEF_FFFF_FFFF_FFFF, 0x3FF0_0000_0000_0001, 0x3CAF_FFFF_FFFF_FFFF, 0x3CB0_0000_0000_0001];
const ORDINARY: [f64; 59] = [
    0.5, 0.25, 0.75, 0.1, 0.9, 0.001, 0.999, 1e-10, 1e-16, 0.3, 1.5, 2.5, 3.0, 5.0, 7.25, 10.0, 20.0, 36.0, 36.5, 37.0, 100.0, 700.0,
    709.75, 710.0, 1e10, 1e100, 1e155, 1e200, -0.5, -0.1, -1e-10, -1.5, -2.5, -5.0, -10.0, -36.0, -36.5, -37.0, -100.0, -700.0, -745.0,
    -746.0, -1e10, -1e200, 3.6, 3.7, -1e-16, 6.7e7, 6.8e7, 1.5e-8,
    -8.125890664701906, -8.125890664701908, 8.0987842043543, 8.098784204354303, 8.38149328651076, 8.381493286510763, -8.381493286510763, 40.0,
    -40.0,
];
const RESPONSES: [f64; 19] =
    [NAN, INF, -INF, -0.0, 0.0, 5e-324, E, 0.25, 0.5, 1.0 - E, 1.0 - E / 2.0, 1.0, 1.0 + E, 1.5, 2.0, 7.0, -1.0, -5e-324, 1e-300];
const MEANS: [f64; 10] = [NAN, INF, 0.0, E, 0.3, 1.0 - E, 1.0, 2.5, -3.0, 1e300];
const WEIGHTS: [f64; 5] = [1.0, 2.5, 0.0, -1.0, NAN];
/// Responses, shapes and scales of a Gamma density, at the ends of what the fit can ask and outside.
const DENSITY_RESPONSES: [f64; 7] = [NAN, INF, 0.0, -1.0, 5e-324, 0.25, 3.5];
const SHAPES: [f64; 9] = [NAN, INF, 0.0, -2.0, 5.6e-309, 0.3, 1.0, 7.25, 4503599627370496.0];
const SCALES: [f64; 7] = [NAN, INF, 0.0, -1.0, E * E, 0.3, 2.5];

fn by_links(word: &str, x: f64, f: impl Fn(Link) -> f64) {
    line(word, [x].iter().copied().chain(LINKS.iter().map(|&link| f(link))));
}

fn by_families(word: &str, x: f64, f: impl Fn(Family) -> f64) {
    line(word, [x].iter().copied().chain(FAMILIES.iter().map(|&family| f(family))));
}

/// Every function of one number.
fn elements(x: f64) {
    by_links("fun", x, |link| link.link_fun(&one(x))[0]);
    by_links("inv", x, |link| link.link_inv(&one(x))[0]);
    by_links("eta", x, |link| link.mu_eta(&one(x))[0]);
    by_families("var", x, |family| family.build().variance(&one(x))[0]);
    by_families("start", x, |family| family.build().initialize_mu(&one(x))[0]);
}

fn deviances(y: f64, mu: f64) {
    print!("dev {} {}", hex(y), hex(mu));
    for wt in WEIGHTS {
        for family in FAMILIES {
            print!(" {}", hex(family.build().dev_resid(&one(y), &one(mu), &one(wt))[0]));
        }
    }
    println!();
}

/// Whether each family is for such a response: document 02, P6, as the oracle's table has it.
fn ranges(y: f64) {
    print!("range {}", hex(y));
    for family in FAMILIES {
        print!(" {}", in_range(family, y) as usize);
    }
    println!();
}

fn densities(y: f64) {
    for shape in SHAPES {
        let values = SCALES.iter().map(|&scale| ln_dgamma(y, shape, scale));
        line("density", [y, shape].iter().copied().chain(values));
    }
}

pub fn put() {
    for pattern in SPECIAL.iter().chain(&NEIGHBOURS) {
        elements(f64::from_bits(*pattern));
    }
    for x in ORDINARY {
        elements(x);
    }
    for y in RESPONSES {
        ranges(y);
        for mu in MEANS {
            deviances(y, mu);
        }
    }
    for y in DENSITY_RESPONSES {
        densities(y);
    }
    for family in FAMILIES {
        print!("valid");
        for link in LINKS {
            print!(" {}", link.valid_for(family) as usize);
        }
        println!(" {}", Link::default_for(family) as usize);
    }
    // every link and every family, told by their codes: document 01 with P2 and P8
    println!("carried 0 1 2 3 4 5 6 0 1 2 3");
    print!("dispersion");
    for family in FAMILIES {
        print!(" {}", family.build().uses_dispersion() as usize);
    }
    println!();
}
