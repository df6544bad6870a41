//! How long the fits of the Rattle library take beside those of the Rust: one process, the same bytes, turns taken.
//! `tools/oracle bench` builds it with `glmm_c`, whose archive has the elementary functions too, so that both sides call the same ones.
//!
//! For each job a line `job FILE n p q order iterations fits solves tries points`, then a line for each round: the nanoseconds of a call
//! of the library, of the Rust's reading and fit of the same bytes, and of its reading alone.
use crate::{account, answer, job};

const ROUNDS: usize = 101;
const TURN: f64 = 2e6; // nanoseconds that one side has in a round
const COUNTS: usize = 14;
const PROCESS_TIME: i32 = 2; // CLOCK_PROCESS_CPUTIME_ID: what other processes take is not counted

#[repr(C)]
struct Timespec {
    seconds: i64,
    nanoseconds: i64,
}

extern "C" {
    fn glmm_rows_length(n: usize) -> usize;
    fn glmm_matrices_length(p: usize, q: usize) -> usize;
    fn glmm_terms_length() -> usize;
    fn glmm_results_length(n: usize, p: usize, q: usize) -> usize;
    fn glmm_fit_job(
        job: *const u8,
        job_length: usize,
        rows: *mut f64,
        rows_length: usize,
        matrices: *mut f64,
        matrices_length: usize,
        terms: *mut f64,
        terms_length: usize,
        results: *mut f64,
        results_length: usize,
        counts: *mut u64,
        counts_length: usize,
    ) -> u64;
    fn clock_gettime(clock: i32, time: *mut Timespec) -> i32;
}

/// What a caller of the library lends.
struct Lent {
    rows: Vec<f64>,
    matrices: Vec<f64>,
    terms: Vec<f64>,
    results: Vec<f64>,
    counts: [u64; COUNTS],
}

impl Lent {
    fn new(n: usize, p: usize, q: usize) -> Self {
        let zeros = |length: usize| vec![0.0; length];
        unsafe {
            Lent {
                rows: zeros(glmm_rows_length(n)),
                matrices: zeros(glmm_matrices_length(p, q)),
                terms: zeros(glmm_terms_length()),
                results: zeros(glmm_results_length(n, p, q)),
                counts: [0; COUNTS],
            }
        }
    }

    fn fit(&mut self, bytes: &[u8]) -> usize {
        unsafe {
            glmm_fit_job(
                bytes.as_ptr(),
                bytes.len(),
                self.rows.as_mut_ptr(),
                self.rows.len(),
                self.matrices.as_mut_ptr(),
                self.matrices.len(),
                self.terms.as_mut_ptr(),
                self.terms.len(),
                self.results.as_mut_ptr(),
                self.results.len(),
                self.counts.as_mut_ptr(),
                COUNTS,
            );
        }
        self.counts[3] as usize
    }
}

fn now() -> f64 {
    let mut time = Timespec { seconds: 0, nanoseconds: 0 };
    unsafe { clock_gettime(PROCESS_TIME, &mut time) };
    time.seconds as f64 * 1e9 + time.nanoseconds as f64
}

/// The nanoseconds of one of `count` calls; what they answer is looked at, so that none can be left out.
fn mean(count: usize, call: &mut dyn FnMut() -> usize) -> f64 {
    let (start, mut sum) = (now(), 0);
    for _ in 0..count {
        sum += call();
    }
    let time = now() - start;
    assert!(sum > 0);
    time / count as f64
}

/// How many calls fill a turn, from the faster of two.
fn turn(call: &mut dyn FnMut() -> usize) -> usize {
    let one = mean(1, call).min(mean(1, call));
    (TURN / one).ceil().max(1.0) as usize
}

/// The counts of document 01's order from the Rust's answer, and all its results in the library's order, as bits.
fn expected(bytes: &[u8]) -> ([u64; COUNTS], Vec<u64>) {
    let (fitted, account) = answer::fit(job::read(bytes).expect("a job that is not refused"));
    let fitted = fitted.expect("a job that is fitted");
    let account::Account { fits, solves, tries, points, eta, mean, pwrss, ok, why, .. } = account;
    let flag = fitted.dispersion_converged as usize;
    let order = fitted.effective_n_agq;
    let counts = [0, order, flag, fitted.iterations, fits, solves, tries, points, 0, why, eta, mean, pwrss, ok].map(|count| count as u64);
    (counts, answer::results(&fitted).iter().flat_map(|(_, list)| list.iter().map(|x| x.to_bits())).collect())
}

/// A job, and its times so far.
struct Case {
    told: String,
    bytes: Vec<u8>,
    lent: Lent,
    turns: [usize; 3],
    rounds: Vec<[f64; 3]>,
}

impl Case {
    /// Both sides must give the same bits; then each is told how many calls its turn has.
    fn new(name: &str) -> Self {
        let bytes = std::fs::read(name).unwrap_or_else(|fault| panic!("{}: {}", name, fault));
        let read = job::read(&bytes).expect("a job that is not refused");
        let (n, p, q) = (read.n, read.p, read.z_starts.len() - 1);
        let mut lent = Lent::new(n, p, q);
        lent.fit(&bytes);
        let (counts, results) = expected(&bytes);
        assert_eq!(lent.counts, counts, "{}", name);
        assert!(lent.results.iter().map(|x| x.to_bits()).eq(results), "{}: the results are not the same bits", name);
        let work: Vec<String> = counts[3..8].iter().map(u64::to_string).collect();
        let told = format!("job {} {} {} {} {} {}", name, n, p, q, counts[1], work.join(" "));
        let turns = [turn(&mut || lent.fit(&bytes)), turn(&mut || theirs(&bytes)), turn(&mut || reading(&bytes))];
        Case { told, bytes, lent, turns, rounds: Vec::new() }
    }

    fn round(&mut self) {
        let Case { bytes, lent, turns, rounds, .. } = self;
        let ours = mean(turns[0], &mut || lent.fit(bytes));
        rounds.push([ours, mean(turns[1], &mut || theirs(bytes)), mean(turns[2], &mut || reading(bytes))]);
    }

    fn put(&self) {
        println!("{}", self.told);
        for times in &self.rounds {
            println!("{:.1} {:.1} {:.1}", times[0], times[1], times[2]);
        }
    }
}

fn theirs(bytes: &[u8]) -> usize {
    answer::fit(job::read(bytes).unwrap()).0.unwrap().iterations
}

fn reading(bytes: &[u8]) -> usize {
    job::read(bytes).unwrap().n
}

/// A round goes through all the jobs, so that what else the machine does is spread over them.
pub fn run(names: &[String]) {
    let mut cases: Vec<Case> = names.iter().map(|name| Case::new(name)).collect();
    for _ in 0..ROUNDS {
        cases.iter_mut().for_each(Case::round);
    }
    cases.iter().for_each(Case::put);
}
