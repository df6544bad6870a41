//! The oracle: the Rust's quadrature.rs, family.rs and the fit of glmm_math.rs, with the libraries that they call replaced by plain
//! loops in document 01's order, and exp, ln, ln_1p, exp_m1, ln_gamma and sqrt those of `elementary_c`.
//! Lines of the three files that were altered say so (ALTERED). The licence of the three is in NOTICE.
//!
//! oracle < job            what `fitjob` must print
//! oracle many [FILE..]    the same for many jobs (their names on standard input, where none is given), each after a line `job FILE`
//! oracle responses < input    what `fitmany` must print: the job's length in three bytes, the job, responses
//! oracle responses FILE..     the same for many inputs, each after a line `job FILE`
//! oracle vectors NAME     what the test program `cases_NAME` must print
//! oracle bench FILE..     where it is built with `--cfg fits`: the times of these jobs' fits, the Rattle library's and the Rust's (bench.rs)
#![allow(dead_code)]

mod account;
mod answer;
#[cfg(fits)]
mod bench;
mod elementary;
mod family;
#[allow(unused_assignments, unused_variables)] // they are only logged
mod glmm_math;
mod job;
mod log;
mod model_matrix;
mod ndarray;
mod ndarray_linalg;
mod quadrature;
mod sprs;
mod sprs_ldl;
mod start;
mod statrs;
mod vectors;

use std::io::{self, BufRead, Read, Write};

/// The Rust's numerical controls, as far as the fit asks for them.
#[derive(Debug, Clone, Default)]
pub struct FitControl {
    pub max_inner_iterations: Option<usize>,
    /// Not the Rust's: R's start of the means in place of its own.
    pub trials: bool,
}

/// The Rust's error, as far as family.rs makes it.
#[derive(Debug)]
pub enum LmeError {
    NotImplemented { feature: String },
}

pub type Result<T> = std::result::Result<T, LmeError>;

fn put(text: &str) {
    io::stdout().write_all(text.as_bytes()).expect("standard output");
}

/// What the Rust says to each of many files; one that makes it panic is answered by the word alone.
fn many(said: fn(&[u8]) -> String, names: impl Iterator<Item = String>) {
    for name in names {
        let bytes = std::fs::read(&name).unwrap_or_else(|fault| panic!("{}: {}", name, fault));
        let text = std::panic::catch_unwind(|| said(&bytes)).unwrap_or_else(|_| "panicked\n".to_string());
        put(&format!("job {}\n{}", name, text));
    }
}

fn main() {
    let arguments: Vec<String> = std::env::args().skip(1).collect();
    let words: Vec<&str> = arguments.iter().map(String::as_str).collect();
    match words.as_slice() {
        [] => {
            let mut bytes = Vec::new();
            io::stdin().take(65537).read_to_end(&mut bytes).expect("standard input");
            put(&answer::answer(&bytes));
        }
        ["many"] => many(answer::answer, io::stdin().lock().lines().map(|line| line.expect("standard input"))),
        ["many", ..] => many(answer::answer, arguments[1..].iter().cloned()),
        ["responses"] => {
            let mut bytes = Vec::new();
            io::stdin().read_to_end(&mut bytes).expect("standard input");
            put(&answer::responses(&bytes));
        }
        ["responses", ..] => many(answer::responses, arguments[1..].iter().cloned()),
        #[cfg(fits)]
        ["bench", ..] => bench::run(&arguments[1..]),
        ["vectors", name] if vectors::put(name) => {}
        _ => {
            eprintln!("usage: oracle < job | oracle many [FILE..] | oracle responses [FILE..] | oracle vectors {}", vectors::names());
            std::process::exit(2);
        }
    }
}
