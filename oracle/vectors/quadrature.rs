//! `cases_quadrature`, by the Rust's own quadrature.rs. k of 19 and 20, where the Rust's power can overflow, are from document 01: none.
use crate::answer::hex;
use crate::quadrature::{gh_rule, log_sum_exp, resolve_gh_order, resolve_gh_order_joint, resolve_gh_order_product};

fn wish(w: usize) {
    print!("wish {} {}", w, resolve_gh_order(w).unwrap_or(0));
    for k in 0..21 {
        print!(" {}", if k > 18 { 0 } else { resolve_gh_order_product(w, k).unwrap_or(0) });
    }
    for q in 0..10 {
        print!(" {}", resolve_gh_order_joint(w, q).unwrap_or(0));
    }
    println!();
}

pub fn put() {
    for n in 0..14 {
        match gh_rule(n) {
            None => println!("none {}", n),
            Some((z, w)) => {
                print!("rule {}", n);
                for i in 0..11 {
                    print!(" {} {}", hex(*z.get(i).unwrap_or(&0.0)), hex(*w.get(i).unwrap_or(&0.0)));
                }
                println!();
            }
        }
    }
    for w in (0..14).chain([31]) {
        wish(w);
    }
    let (inf, nan) = (f64::INFINITY, f64::NAN);
    let some = [-1.5, 0.25, 3.0, 2.999, -700.0, 0.1];
    let lists: [&[f64]; 19] = [
        &some[..0],
        &some[..1],
        &some[..2],
        &some[..3],
        &some[..4],
        &some[..5],
        &some,
        &[-1000.0, -1000.5, -1003.0],
        &[1e300, 1e300],
        &[-0.0],
        &[0.0, -0.0],
        &[nan, -inf],
        &[nan],
        &[-inf, -inf],
        &[1.0, inf],
        &[inf, nan],
        &[1.0, nan, 2.0],
        &[nan, -3.0],
        &[-inf, -3.0, -inf],
    ];
    for xs in lists {
        println!("log_sum {}", hex(log_sum_exp(xs)));
    }
}
