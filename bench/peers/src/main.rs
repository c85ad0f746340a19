//! Times walks over headers, and the reading of signed data and of certificates, beside the crates bcder and asn1 in one process: processor
//! time, in turn, the smallest of nine rounds. First it checks that all of them find the same.
//!
//! usage: peers CERTIFICATE      (as bench/linked.py runs it)
//!        peers --recursion      (walks the deepest input by recursion, to see whether the stack is large enough)

mod certificates;
#[path = "../../clock.rs"]
mod clock;
mod inputs;
mod readers;

use certificates::CERTIFICATES;
use clock::now;
use inputs::Input;
use readers::{Reader, RECURSION, SIGNED, WALKS};
use std::error::Error;
use std::hint::black_box;
use std::process::{Command, Stdio};

const ROUNDS: usize = 9;

/// The nanoseconds that a call takes.
fn once(input: &Input, reader: &Reader) -> Result<f64, String> {
    let start = now();
    for _ in 0..input.repeats {
        if !(reader.call)(black_box(input)) {
            return Err(format!("{} finds something else in {}", reader.name, input.name));
        }
    }
    Ok((now() - start) / f64::from(input.repeats))
}

/// The smallest nanoseconds of each reader. The first round warms up.
fn smallest(input: &Input, readers: &[&Reader]) -> Result<Vec<f64>, String> {
    let mut best = vec![f64::INFINITY; readers.len()];
    for round in 0..=ROUNDS {
        for (best, reader) in best.iter_mut().zip(readers) {
            let took = once(input, reader)?;
            if round > 0 {
                *best = best.min(took);
            }
        }
    }
    Ok(best)
}

/// Times the readers of each kind, the first of which is ours, and names those that are left out.
fn measure(input: &Input, walks: &[Reader], signed: &[Reader]) -> Result<(), String> {
    if !readers::agree(input) {
        return Err(format!("the readers find other parts in {}", input.name));
    }
    let readers: Vec<&Reader> = walks.iter().chain(signed).collect();
    let best = smallest(input, &readers)?;
    let (best_walks, best_signed) = best.split_at(walks.len());
    println!("\n{}: {} octets, {} headers", input.name, input.octets.len(), input.headers);
    println!("{:<28}{:>14}{:>12}{:>14}", "", "us a call", "ns/header", "x ours");
    print_rows(input, walks, best_walks);
    print_left_out(&WALKS[walks.len()..], "it overflows the stack");
    print_rows(input, signed, best_signed);
    print_left_out(&SIGNED[signed.len()..], "it does not look inside the value");
    Ok(())
}

fn print_rows(input: &Input, readers: &[Reader], best: &[f64]) {
    for (reader, took) in readers.iter().zip(best) {
        let (micros, a_header, ratio) = (1e-3 * took, took / input.headers as f64, took / best[0]);
        println!("{:<28}{micros:>14.3}{a_header:>12.2}{ratio:>14.2}", reader.name);
    }
}

/// Times the readers of whole certificates.
fn measure_certificates(input: &Input) -> Result<(), String> {
    let readers: Vec<&Reader> = CERTIFICATES.iter().collect();
    print_rows(input, CERTIFICATES, &smallest(input, &readers)?);
    Ok(())
}

fn print_left_out(readers: &[Reader], why: &str) {
    for reader in readers {
        println!("{:<28}left out: {why}", reader.name);
    }
}

/// Whether a process like this one gets through the deepest input by recursion: no signal ends it.
fn recursion_ends() -> Result<bool, Box<dyn Error>> {
    let mut child = Command::new(std::env::current_exe()?);
    Ok(child.arg("--recursion").stderr(Stdio::null()).status()?.code().is_some())
}

fn main() -> Result<(), Box<dyn Error>> {
    let words: Vec<String> = std::env::args().skip(1).collect();
    let [word] = &words[..] else {
        return Err("usage: peers CERTIFICATE".into());
    };
    if word == "--recursion" {
        once(&Input::nested()?, RECURSION)?;
        return Ok(());
    }
    let without_recursion = &WALKS[..WALKS.len() - 1];
    let of_inside = &SIGNED[..SIGNED.len() - 1];
    let certificate = Input::certificate(std::fs::read(word)?)?;
    measure(&certificate, WALKS, SIGNED)?;
    measure_certificates(&certificate)?;
    measure(&Input::small_values()?, WALKS, of_inside)?;
    measure(&Input::nested()?, if recursion_ends()? { WALKS } else { without_recursion }, of_inside)?;
    Ok(())
}
