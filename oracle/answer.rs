//! What the programs print, for one job and for many responses.
use crate::account::{self, Account};
use crate::glmm_math::{GlmmCoefficients, GlmmData};
use crate::job::{self, Job};
use crate::model_matrix::ReBlock;
use crate::ndarray::{Array1, Array2};
use crate::sprs::CsMat;
use crate::FitControl;
use std::fmt::Write;

/// Sixteen hex digits; every NaN prints as one.
pub fn hex(x: f64) -> String {
    format!("{:016X}", if x.is_nan() { 0x7FF8_0000_0000_0000 } else { x.to_bits() })
}

pub fn answer(bytes: &[u8]) -> String {
    match job::read(bytes) {
        Err(refusal) => format!("refused {} at {}\n", refusal.number, refusal.byte),
        Ok(job) => {
            let (fitted, account) = fit(job);
            lines(fitted.as_ref(), account)
        }
    }
}

/// A line `response I` before what is printed of each response, which takes the place of the job's in the Rust's data (`with_response`).
pub fn responses(input: &[u8]) -> String {
    match job::read_many(input) {
        Err(refusal) => format!("refused {} at {}\n", refusal.number, refusal.byte),
        Ok((job, responses)) => {
            let (theta, offset, n_agq, family, link) = (job.theta.clone(), job.offset.clone().map(Array1::from_vec), job.n_agq, job.family, job.link);
            let design = data(job);
            let each = responses.into_iter().enumerate().map(|(number, y)| {
                let mut data = design.with_response(Array1::from_vec(y), family.build_with_link(link).unwrap());
                let (fitted, account) = evaluated(&mut data, &theta, offset.as_ref(), n_agq);
                format!("response {}\n{}", number, lines(fitted.as_ref(), account))
            });
            each.collect()
        }
    }
}

pub fn fit(job: Job) -> (Option<GlmmCoefficients>, Account) {
    let (theta, offset, n_agq) = (job.theta.clone(), job.offset.clone().map(Array1::from_vec), job.n_agq);
    evaluated(&mut data(job), &theta, offset.as_ref(), n_agq)
}

fn evaluated(data: &mut GlmmData, theta: &[f64], offset: Option<&Array1<f64>>, n_agq: usize) -> (Option<GlmmCoefficients>, Account) {
    account::clear();
    let fitted = data.evaluate(theta, offset, n_agq);
    (fitted, account::read())
}

fn data(job: Job) -> GlmmData {
    let q = job.z_starts.len() - 1;
    let blocks = job.blocks.iter().map(|&(m, k)| ReBlock { m, k, theta_len: k * (k + 1) / 2 }).collect();
    let mut data = GlmmData::new_weighted(
        Array2::from_rows((job.n, job.p), job.x),
        CsMat::new((q, job.n), job.z_starts, job.z_columns, job.z_values),
        Array1::from_vec(job.y),
        blocks,
        job.family.build_with_link(job.link).unwrap(),
        job.n_agq,
        job.weights.map(Array1::from_vec),
    );
    data.set_control(FitControl { max_inner_iterations: job.limit, trials: job.trials });
    data
}

/// Every result by its name, in the order in which they are printed.
pub fn results(fitted: &GlmmCoefficients) -> [(&'static str, Vec<f64>); 11] {
    let rows = &fitted.v_beta_unscaled;
    let v = (0..rows.nrows()).flat_map(|i| (0..rows.ncols()).map(move |j| rows[[i, j]])).collect();
    [
        ("deviance", vec![fitted.deviance]),
        ("phi", vec![fitted.phi]),
        ("beta", fitted.beta.to_vec()),
        ("se", fitted.beta_se.to_vec()),
        ("z", fitted.beta_z.to_vec()),
        ("u", fitted.u.to_vec()),
        ("b", fitted.b.to_vec()),
        ("mu", fitted.fitted.to_vec()),
        ("eta", fitted.eta.to_vec()),
        ("residual", fitted.residuals.to_vec()),
        ("v", v),
    ]
}

fn lines(fitted: Option<&GlmmCoefficients>, account: Account) -> String {
    let (end, order, flag, iterations, why) = match fitted {
        Some(fitted) => (0, fitted.effective_n_agq, fitted.dispersion_converged as usize, fitted.iterations, account.why),
        None => (account.end, 0, 0, 0, 0),
    };
    let mut text = format!(
        "end {} order {} disp {} iters {} fits {} solves {} tries {} points {} why {} eta {} mean {} pwrss {} ok {}\n",
        end,
        order,
        flag,
        iterations,
        account.fits,
        account.solves,
        account.tries,
        account.points,
        why,
        account.eta,
        account.mean,
        account.pwrss,
        account.ok
    );
    if let Some(fitted) = fitted {
        for (name, list) in &results(fitted) {
            for (index, &x) in list.iter().enumerate() {
                writeln!(text, "{} {} {}", name, index, hex(x)).unwrap();
            }
        }
    }
    text
}
