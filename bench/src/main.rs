//! Times each kernel beside a plain loop on the same rows, and prints a table of ratios.

mod kernels;
mod plain;

use std::hint::black_box;
use std::time::Instant;

const LENGTHS: [usize; 4] = [8, 64, 512, 4096];
const SAMPLES: usize = 301;
// About how many words one sample goes over.
const WORDS_A_SAMPLE: usize = 1 << 16;

/// Two rows of one length.
struct Rows {
    a: Vec<u64>,
    b: Vec<u64>,
}

type Test = fn(&[u64], &[u64]) -> bool;
type Change = fn(&mut [u64], &[u64]);

/// `n` words with bits of the mask, none of them 0.
fn row(n: usize, mask: u64) -> Vec<u64> {
    let mut word = 1u64;
    (0..n)
        .map(|_| {
            word = word
                .wrapping_mul(6364136223846793005)
                .wrapping_add(1442695040888963407);
            (word & mask) | (mask & mask.wrapping_neg())
        })
        .collect()
}

/// Rows without a common bit, so that `hits` and `met` go to the end.
fn apart(n: usize) -> Rows {
    Rows {
        a: row(n, 0x5555_5555_5555_5555),
        b: row(n, 0xAAAA_AAAA_AAAA_AAAA),
    }
}

/// Equal rows, so that `within` and `same` go to the end.
fn equal(n: usize) -> Rows {
    Rows {
        a: row(n, u64::MAX),
        b: row(n, u64::MAX),
    }
}

/// Nanoseconds for one call of the work, over one sample.
fn sample(n: usize, work: &mut impl FnMut()) -> f64 {
    let calls = (WORDS_A_SAMPLE / n).max(1);
    let start = Instant::now();
    for _ in 0..calls {
        work();
    }
    start.elapsed().as_nanos() as f64 / calls as f64
}

fn median(mut times: Vec<f64>) -> f64 {
    times.sort_by(f64::total_cmp);
    times[times.len() / 2]
}

/// The medians of both, sampled in turn so that both meet the same noise.
fn both(n: usize, mut kernel: impl FnMut(), mut plain: impl FnMut()) -> (f64, f64) {
    let mut kernel_times = Vec::with_capacity(SAMPLES);
    let mut plain_times = Vec::with_capacity(SAMPLES);
    for _ in 0..SAMPLES {
        kernel_times.push(sample(n, &mut kernel));
        plain_times.push(sample(n, &mut plain));
    }
    (median(kernel_times), median(plain_times))
}

fn test_times(rows: &Rows, kernel: Test, plain: Test) -> (f64, f64) {
    assert_eq!(kernel(&rows.a, &rows.b), plain(&rows.a, &rows.b));
    let run = |test: Test| {
        black_box(test(black_box(&rows.a), black_box(&rows.b)));
    };
    both(rows.a.len(), || run(kernel), || run(plain))
}

fn change_times(rows: &Rows, kernel: Change, plain: Change) -> (f64, f64) {
    let (mut by_kernel, mut by_plain) = (rows.a.clone(), rows.a.clone());
    kernel(&mut by_kernel, &rows.b);
    plain(&mut by_plain, &rows.b);
    assert_eq!(by_kernel, by_plain);
    both(
        rows.a.len(),
        || kernel(black_box(&mut by_kernel), black_box(&rows.b)),
        || plain(black_box(&mut by_plain), black_box(&rows.b)),
    )
}

fn print_line(name: &str, times: impl Fn(usize) -> (f64, f64)) {
    print!("{name:10}");
    for n in LENGTHS {
        let (kernel, plain) = times(n);
        print!(" | {:5.2} {kernel:7.1} {plain:7.1}", kernel / plain);
    }
    println!();
}

fn main() {
    println!("kernel / plain loop, and nanoseconds for one call of each: medians of {SAMPLES}");
    print!("{:10}", "words");
    for n in LENGTHS {
        print!(" | {n:>21}");
    }
    println!();
    print_line("hits", |n| {
        test_times(&apart(n), kernels::hits, plain::hits)
    });
    print_line("met", |n| test_times(&apart(n), kernels::met, plain::met));
    print_line("within", |n| {
        test_times(&equal(n), kernels::within, plain::within)
    });
    print_line("same", |n| {
        test_times(&equal(n), kernels::same, plain::same)
    });
    print_line("or_into", |n| {
        change_times(&apart(n), kernels::or_into, plain::or_into)
    });
    print_line("and_into", |n| {
        change_times(&equal(n), kernels::and_into, plain::and_into)
    });
    print_line("take_out", |n| {
        change_times(&apart(n), kernels::take_out, plain::take_out)
    });
}
