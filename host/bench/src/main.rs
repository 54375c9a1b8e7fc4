//! The proved cache beside the unchanged Rust, on the same calls, in one run. It writes a table: nanoseconds for one call.
//!
//! Each figure is the least of several rounds, which is what a busy machine disturbs least. The rounds of the two caches take
//! turns. `tools/bench` runs it; docs/BENCHMARKS.md says what limits each figure.

mod plain_test;
mod proved;
mod unchanged;
mod workload;

use page_cache::Record;
use std::time::Instant;
use workload::{Load, Shape};

/// The least of several rounds, in nanoseconds for one of `count`.
struct Least(f64);

impl Least {
    fn new() -> Self {
        Least(f64::INFINITY)
    }

    fn round(&mut self, count: usize, run: impl FnOnce()) {
        let start = Instant::now();
        run();
        self.0 = self.0.min(start.elapsed().as_nanos() as f64 / count as f64);
    }
}

const ROUNDS: usize = 15;

/// One load on both caches: a call below the soundness test, a whole call, and the Rust's.
fn compare(pages: usize, load: &Load) {
    let (mut below, mut whole, mut rust) = (Least::new(), Least::new(), Least::new());
    let bytes = load.bytes();
    // whole calls test the memory each time, so that fewer of them are enough
    let part = &bytes[..Record::LENGTH * load.calls.len().min(2000)];
    for _ in 0..ROUNDS {
        let mut pool = proved::Pool::ready(pages, load);
        below.round(load.steps(), || pool.run(&bytes));
        let mut cache = unchanged::Cache::ready(pages, load);
        rust.round(load.steps(), || cache.run());
        let mut pool = proved::Pool::ready(pages, load);
        whole.round(part.len() / Record::LENGTH * load.looks, || pool.apply_each(part));
        cache.check(load, proved::held_after(pages, load));
    }
    println!(
        "| {} | {pages} | {:.1} | {:.1} | {:.2} | {:.0} |",
        load.name,
        below.0,
        rust.0,
        below.0 / rust.0,
        whole.0
    );
}

/// The soundness test of a full pool, by slot, beside the same test in plain Rust.
fn compare_tests(pages: usize) {
    let (mut ours, mut plain) = (Least::new(), Least::new());
    let pool = proved::Pool::ready(pages, &Load::new(Shape::Lookup, pages));
    const TURNS: usize = 200;
    for _ in 0..ROUNDS {
        ours.round(TURNS * pages, || (0..TURNS).for_each(|_| assert!(pool.is_sound())));
        plain.round(TURNS * pages, || (0..TURNS).for_each(|_| assert!(plain_test::is_sound(&pool))));
    }
    println!("| {pages} | {:.2} | {:.2} | {:.2} | {:.1} |", ours.0, plain.0, ours.0 / plain.0, ours.0 * pages as f64 / 1000.0);
}

fn main() {
    plain_test::agrees();
    println!("| call | pages | proved, below the test (ns) | Rust (ns) | ratio | proved, whole call (ns) |");
    println!("|---|---|---|---|---|---|");
    for shape in Shape::ALL {
        for pages in [256, 2000, 4096] {
            compare(pages, &Load::new(shape, pages));
        }
    }
    println!();
    println!("| pages | proved test, per slot (ns) | plain Rust, per slot (ns) | ratio | proved, the whole test (µs) |");
    println!("|---|---|---|---|---|");
    for pages in [256, 2000, 4096] {
        compare_tests(pages);
    }
}
