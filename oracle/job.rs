//! The reader of a job, written from document 01, 'The job and the program', and document 02 (P10: version 2; P1: responses behind it), and the table of
//! refusals as far as a job reaches it.
use crate::family::{Family, Link};

/// What a job holds once it is accepted.
#[derive(Debug, Clone)]
pub struct Job {
    pub family: Family,
    pub link: Link,
    pub n_agq: usize,
    pub n: usize,
    pub p: usize,
    pub limit: Option<usize>,
    /// Whether R's start is asked for, which version 2 can.
    pub trials: bool,
    /// m and k of each block.
    pub blocks: Vec<(usize, usize)>,
    pub theta: Vec<f64>,
    pub y: Vec<f64>,
    pub weights: Option<Vec<f64>>,
    pub offset: Option<Vec<f64>>,
    /// Row by row.
    pub x: Vec<f64>,
    pub z_starts: Vec<usize>,
    pub z_columns: Vec<usize>,
    pub z_values: Vec<f64>,
}

/// `refused number at byte`.
#[derive(Debug, Clone, Copy, PartialEq)]
pub struct Refusal {
    pub number: usize,
    pub byte: usize,
}

fn refuse<T>(number: usize, byte: usize) -> Result<T, Refusal> {
    Err(Refusal { number, byte })
}

/// Bits from the front, the most significant of each byte first.
struct Bits<'a> {
    bytes: &'a [u8],
    at: usize,
}

impl Bits<'_> {
    /// A field of so many bits; cut short is 20 at the input's length.
    fn field(&mut self, width: usize) -> Result<u64, Refusal> {
        if self.at + width > 8 * self.bytes.len() {
            return refuse(20, self.bytes.len());
        }
        let mut value = 0;
        for _ in 0..width {
            let bit = self.bytes[self.at / 8] >> (7 - self.at % 8) & 1;
            value = 2 * value + bit as u64;
            self.at += 1;
        }
        Ok(value)
    }

    fn number(&mut self, width: usize) -> Result<usize, Refusal> {
        Ok(self.field(width)? as usize)
    }

    /// Bits that must be zero; the first that is set is 22 at its byte.
    fn zeros(&mut self, count: usize) -> Result<(), Refusal> {
        if self.at + count > 8 * self.bytes.len() {
            return refuse(20, self.bytes.len());
        }
        for _ in 0..count {
            let byte = self.at / 8;
            if self.field(1)? == 1 {
                return refuse(22, byte);
            }
        }
        Ok(())
    }

    fn doubles(&mut self, count: usize) -> Result<Vec<f64>, Refusal> {
        let mut all = Vec::new();
        for _ in 0..count {
            all.push(f64::from_bits(self.field(64)?));
        }
        Ok(all)
    }
}

const FAMILIES: [Family; 4] = [Family::Binomial, Family::Poisson, Family::Gaussian, Family::Gamma];
const LINKS: [Link; 7] =
    [Link::Logit, Link::Probit, Link::Cloglog, Link::Log, Link::Identity, Link::Inverse, Link::Sqrt];

/// The sizes of document 01 that the header and the blocks tell; the entries of Z' are bounded by the job's length.
fn good_sizes(n: usize, p: usize, blocks: &[(usize, usize)]) -> bool {
    let each = blocks.iter().all(|&(m, k)| m >= 1 && 1 <= k && k <= 8);
    let q: usize = blocks.iter().map(|&(m, k)| m * k).sum();
    1 <= n && n <= 512 && 1 <= p && p <= 16 && 1 <= blocks.len() && blocks.len() <= 8 && each && 1 <= q && q <= 32
}

/// A job that can be fitted.
pub fn read(bytes: &[u8]) -> Result<Job, Refusal> {
    let job = parse(bytes)?;
    match table(&job, &[job.y.clone()]) {
        0 => Ok(job),
        number => refuse(number, 0),
    }
}

/// A job and its responses, of an input that begins with the job's length in three bytes: 8 and 2 stand before the rest of the table, which is over all
/// responses. The job's own are not looked at.
pub fn read_many(input: &[u8]) -> Result<(Job, Vec<Vec<f64>>), Refusal> {
    let length = input.iter().take(3).fold(0, |whole, &byte| 256 * whole + byte as usize);
    let (front, behind) = split(input.get(3..).unwrap_or(&[]), length);
    let job = parse(front)?;
    let responses: Vec<Vec<f64>> = behind.chunks_exact(8 * job.n).map(doubles).collect();
    if responses.is_empty() || responses.len() > 64 {
        return refuse(8, 0);
    }
    if 8 * job.n * responses.len() != behind.len() {
        return refuse(2, 0);
    }
    match table(&job, &responses) {
        0 => Ok((job, responses)),
        number => refuse(number, 0),
    }
}

/// The first bytes, or all where there are fewer, and the others.
fn split(bytes: &[u8], length: usize) -> (&[u8], &[u8]) {
    bytes.split_at(length.min(bytes.len()))
}

fn doubles(bytes: &[u8]) -> Vec<f64> {
    bytes.chunks_exact(8).map(|eight| f64::from_bits(eight.iter().fold(0, |whole, &byte| whole << 8 | byte as u64))).collect()
}

/// Every number of a job, before the table but for its number 1.
fn parse(bytes: &[u8]) -> Result<Job, Refusal> {
    if bytes.len() > 65536 {
        return refuse(25, 65536);
    }
    let mut bits = Bits { bytes, at: 0 };
    let version = bits.number(4)?;
    if version != 1 && version != 2 {
        return refuse(21, 0);
    }
    let family = FAMILIES[bits.number(2)?];
    let link = match LINKS.get(bits.number(3)?) {
        Some(&link) => link,
        None => return refuse(24, 0),
    };
    let has_weights = bits.field(1)? == 1;
    let has_offset = bits.field(1)? == 1;
    let n_agq = bits.number(5)?;
    let n = bits.number(13)?;
    let p = bits.number(5)?;
    let block_count = bits.number(4)?;
    let limit = match bits.number(10)? {
        1023 => None,
        limit if limit <= 1000 => Some(limit),
        _ => return refuse(24, 4),
    };
    let trials = version == 2 && bits.field(1)? == 1;
    if version == 2 {
        bits.zeros(7)?;
    }
    let mut blocks = Vec::new();
    for _ in 0..block_count {
        let m = bits.number(7)?;
        let k = bits.number(4)?;
        bits.zeros(5)?;
        blocks.push((m, k));
    }
    if !good_sizes(n, p, &blocks) {
        return refuse(1, 0);
    }
    let theta = bits.doubles(blocks.iter().map(|&(_, k)| k * (k + 1) / 2).sum())?;
    let y = bits.doubles(n)?;
    let weights = if has_weights { Some(bits.doubles(n)?) } else { None };
    let offset = if has_offset { Some(bits.doubles(n)?) } else { None };
    let x = bits.doubles(n * p)?;
    let (mut z_starts, mut z_columns, mut z_values) = (vec![0], Vec::new(), Vec::new());
    for _ in 0..blocks.iter().map(|&(m, k)| m * k).sum() {
        let count = bits.number(13)?;
        bits.zeros(3)?;
        for _ in 0..count {
            z_columns.push(bits.number(13)?);
            bits.zeros(3)?;
            z_values.extend(bits.doubles(1)?);
        }
        z_starts.push(z_columns.len());
    }
    if bits.at < 8 * bytes.len() {
        return refuse(23, bits.at / 8);
    }
    Ok(Job { family, link, n_agq, n, p, limit, trials, blocks, theta, y, weights, offset, x, z_starts, z_columns, z_values })
}

/// The rest of the table, in its order, for the responses that are to be fitted; a job's lengths are right and its program lends enough.
fn table(job: &Job, responses: &[Vec<f64>]) -> usize {
    if !rising_columns(job) {
        return 6;
    }
    let absent = Vec::new();
    let lists = [
        &job.theta,
        job.weights.as_ref().unwrap_or(&absent),
        job.offset.as_ref().unwrap_or(&absent),
        &job.x,
        &job.z_values,
    ];
    if !lists.into_iter().chain(responses).all(|list| list.iter().all(|number| number.is_finite())) {
        return 3;
    }
    if !job.link.valid_for(job.family) {
        return 4;
    }
    if !responses.iter().flatten().all(|&y| in_range(job.family, y)) {
        return 9;
    }
    if job.trials && !(job.family == Family::Binomial && job.weights.iter().flatten().all(|&weight| !(weight < 0.0))) {
        return 27;
    }
    0
}

/// Whether a family is for such a response (document 02, P6).
pub fn in_range(family: Family, y: f64) -> bool {
    match family {
        Family::Binomial => 0.0 <= y && y <= 1.0,
        Family::Poisson => 0.0 <= y,
        Family::Gaussian => true,
        Family::Gamma => 0.0 < y,
    }
}

fn rising_columns(job: &Job) -> bool {
    for row in 0..job.z_starts.len() - 1 {
        let columns = &job.z_columns[job.z_starts[row]..job.z_starts[row + 1]];
        for (at, &column) in columns.iter().enumerate() {
            if column >= job.n || at > 0 && column <= columns[at - 1] {
                return false;
            }
        }
    }
    true
}
