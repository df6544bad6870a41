//! What the port tells and the Rust does not: inner fits, solves, tries, points, what became of the tries, which end a `None` is, and why the last inner fit
//! stayed with Laplace.
use std::sync::atomic::{AtomicUsize, Ordering::Relaxed};

static FITS: AtomicUsize = AtomicUsize::new(0);
static SOLVES: AtomicUsize = AtomicUsize::new(0);
static TRIES: AtomicUsize = AtomicUsize::new(0);
static POINTS: AtomicUsize = AtomicUsize::new(0);
static ETA: AtomicUsize = AtomicUsize::new(0);
static MEAN: AtomicUsize = AtomicUsize::new(0);
static PWRSS: AtomicUsize = AtomicUsize::new(0);
static OK: AtomicUsize = AtomicUsize::new(0);
static END: AtomicUsize = AtomicUsize::new(0);
static WHY: AtomicUsize = AtomicUsize::new(0);

/// The counts of one call, the number that its `None` would have, and the reason of its last quadrature, 0 where that was used.
#[derive(Debug, Clone, Copy, PartialEq)]
pub struct Account {
    pub fits: usize,
    pub solves: usize,
    pub tries: usize,
    pub points: usize,
    pub eta: usize,
    pub mean: usize,
    pub pwrss: usize,
    pub ok: usize,
    pub end: usize,
    pub why: usize,
}

pub fn clear() {
    for count in [&FITS, &SOLVES, &TRIES, &POINTS, &ETA, &MEAN, &PWRSS, &OK, &END, &WHY] {
        count.store(0, Relaxed);
    }
}

pub fn read() -> Account {
    Account {
        fits: FITS.load(Relaxed),
        solves: SOLVES.load(Relaxed),
        tries: TRIES.load(Relaxed),
        points: POINTS.load(Relaxed),
        eta: ETA.load(Relaxed),
        mean: MEAN.load(Relaxed),
        pwrss: PWRSS.load(Relaxed),
        ok: OK.load(Relaxed),
        end: END.load(Relaxed),
        why: WHY.load(Relaxed),
    }
}

/// An inner fit begins.
pub fn fit() {
    FITS.fetch_add(1, Relaxed);
}

/// An iteration found its u.
pub fn solve() {
    SOLVES.fetch_add(1, Relaxed);
}

/// A candidate was formed.
pub fn attempt() {
    TRIES.fetch_add(1, Relaxed);
}

/// A candidate was refused for its predictor.
pub fn refused_eta() {
    ETA.fetch_add(1, Relaxed);
}

/// A candidate was refused for a mean.
pub fn refused_mean() {
    MEAN.fetch_add(1, Relaxed);
}

/// A candidate was refused for its PWRSS.
pub fn refused_pwrss() {
    PWRSS.fetch_add(1, Relaxed);
}

/// A candidate was accepted.
pub fn accepted() {
    OK.fetch_add(1, Relaxed);
}

/// A log term was formed.
pub fn point() {
    POINTS.fetch_add(1, Relaxed);
}

/// From here on a `None` of the inner fit is this end.
pub fn ends_as(number: usize) {
    END.store(number, Relaxed);
}

/// From here on an inner fit that keeps Laplace does so for this reason; 0, it does not.
pub fn why(reason: usize) {
    WHY.store(reason, Relaxed);
}
