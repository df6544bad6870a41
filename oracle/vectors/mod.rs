//! What the test programs must print, as far as the Rust, or the loops that stand in for its libraries, can say it.
mod factor;
mod family;
mod family_lists;
mod linear;
mod names;
mod quadrature;

use crate::answer::hex;
use crate::ndarray::Array1;

const LISTS: [(&str, fn()); 6] = [
    ("factor", factor::put),
    ("family", family::put),
    ("family_lists", family_lists::put),
    ("linear", linear::put),
    ("names", names::put),
    ("quadrature", quadrature::put),
];

/// NaN, the infinities, zeros, subnormals, the smallest normal, E, 1 - E, 1, 2, pi and MAX, of both signs; last two more NaNs.
const SPECIAL: [u64; 24] = [
    0x7FF8_0000_0000_0000,
    0x7FF0_0000_0000_0000,
    0xFFF0_0000_0000_0000,
    0x0000_0000_0000_0000,
    0x8000_0000_0000_0000,
    0x0000_0000_0000_0001,
    0x8000_0000_0000_0001,
    0x000F_FFFF_FFFF_FFFF,
    0x800F_FFFF_FFFF_FFFF,
    0x0010_0000_0000_0000,
    0x8010_0000_0000_0000,
    0x3CB0_0000_0000_0000,
    0xBCB0_0000_0000_0000,
    0x3FEF_FFFF_FFFF_FFFE,
    0x3FF0_0000_0000_0000,
    0xBFF0_0000_0000_0000,
    0x4000_0000_0000_0000,
    0xC000_0000_0000_0000,
    0x4009_21FB_5444_2D18,
    0xC009_21FB_5444_2D18,
    0x7FEF_FFFF_FFFF_FFFF,
    0xFFEF_FFFF_FFFF_FFFF,
    0x7FF0_0000_0000_0001,
    0xFFFF_FFFF_FFFF_FFFF,
];

fn line(word: &str, xs: impl IntoIterator<Item = f64>) {
    print!("{}", word);
    for x in xs {
        print!(" {}", hex(x));
    }
    println!();
}

fn one(x: f64) -> Array1<f64> {
    Array1::from_vec(vec![x])
}

pub fn names() -> String {
    LISTS.map(|(name, _)| name).join("|")
}

/// False where there is no such list.
pub fn put(name: &str) -> bool {
    match LISTS.iter().find(|list| list.0 == name) {
        Some((_, list)) => list(),
        None => return false,
    }
    true
}
