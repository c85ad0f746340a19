//! Times calls of rpki-proved beside the crate rpki's own ways of doing the same, in one process: processor time, in
//! turn, the smallest of 61 rounds. First it checks that both answer the same.
//!
//! usage: package [NAME]      (the rows whose names begin so)

#[path = "../../clock.rs"]
mod clock;
mod decoded;
mod plain;
mod texts;
mod times;
mod uris;
mod values;

use clock::now;

const ROUNDS: usize = 61;
const REPEATS: u32 = 20_000;

/// The nanoseconds of a call.
fn once(call: &mut dyn FnMut()) -> f64 {
    let start = now();
    for _ in 0..REPEATS {
        call();
    }
    (now() - start) / f64::from(REPEATS)
}

/// The title of the rows that follow.
fn title(text: &str) {
    println!("\n{text:<34}{:>9}{:>10}{:>8}", "ns", "plain ns", "ratio");
}

/// Times both in turn. The first round warms up.
fn row(name: &str, mut ours: impl FnMut(), mut other: impl FnMut()) {
    if std::env::args().nth(1).is_some_and(|call| !name.starts_with(&call)) {
        return;
    }
    let mut best = [f64::INFINITY; 2];
    for round in 0..=ROUNDS {
        let took = [once(&mut ours), once(&mut other)];
        if round > 0 {
            best = [best[0].min(took[0]), best[1].min(took[1])];
        }
    }
    println!("{name:<34}{:>9.1}{:>10.1}{:>8.2}", best[0], best[1], best[0] / best[1]);
}

fn main() {
    for (base, name) in [
        ("rsync://rpki.example/repository/", "ca.mft"),
        (
            "rsync://repository.rpki.example/repository/DEFAULT/7d/0e6f2c-5b1e-4c7b-a0d5-2f0d2c6b3a91/1/",
            "p3Yh2lV9m5Q0w8ZkUeRtXc1oBvN.mft",
        ),
        (&("rsync://rpki.example/repository/".to_string() + &"segment/".repeat(200)), "ca.mft"),
    ] {
        uris::measure(base, name);
    }
    uris::measure_https();
    times::measure();
    values::measure();
    decoded::measure();
    texts::measure();
}
