//! Runs a program once, with a file as its input and one as its output, and prints the processor time that it took in
//! microseconds and its peak memory in kilobytes. A small process starts it, since a process that is started counts
//! the memory of the one that starts it.
//!
//! usage: measure INPUT OUTPUT PROGRAM [WORD..]

use std::fs::File;
use std::process::{Command, exit};

#[repr(C)]
struct Usage {
    user: [i64; 2],
    system: [i64; 2],
    peak: i64,
    others: [i64; 13],
}

unsafe extern "C" {
    fn wait4(process: i32, status: *mut i32, options: i32, usage: *mut Usage) -> i32;
}

fn main() {
    let words: Vec<String> = std::env::args().collect();
    let input = File::open(&words[1]).expect("the input");
    let output = File::create(&words[2]).expect("the output");
    let child = Command::new(&words[3])
        .args(&words[4..])
        .stdin(input)
        .stdout(output)
        .spawn()
        .expect("the program");
    let mut status = 0;
    let mut usage = Usage { user: [0; 2], system: [0; 2], peak: 0, others: [0; 13] };
    // SAFETY: the process is a child that nobody else waits for, and the two places are valid for writes.
    let waited = unsafe { wait4(child.id() as i32, &mut status, 0, &mut usage) };
    if waited != child.id() as i32 || status != 0 {
        exit(1);
    }
    let micros = (usage.user[0] + usage.system[0]) * 1_000_000 + usage.user[1] + usage.system[1];
    println!("{micros} {}", usage.peak);
}
