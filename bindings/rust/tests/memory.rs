//! Where memory ends, an index says so and ends nothing.

use rpki_proved::view::{walk, DecodeError, Index};
use std::process::Command;

/// A SEQUENCE of so many NULLs, 4,000,000 or more and fewer than 8,388,608.
fn nulls(count: usize) -> Vec<u8> {
    let length = 2 * count;
    let mut octets = vec![0x30, 0x83, (length >> 16) as u8, (length >> 8) as u8, length as u8];
    octets.extend([5, 0].repeat(count));
    octets
}

/// Runs `with_little_memory` in a process of its own, which may take 200 MB.
#[test]
fn an_index_that_has_no_room_is_out_of_memory() {
    let this = std::env::current_exe().unwrap();
    let words = "ulimit -v 200000 && exec \"$0\" --exact with_little_memory --ignored --test-threads=1";
    let ran = Command::new("sh").args(["-c", words]).arg(this).output().unwrap();
    let told = String::from_utf8_lossy(&ran.stdout);
    assert!(ran.status.success() && told.contains("1 passed"), "{told}{}", String::from_utf8_lossy(&ran.stderr));
}

/// The entries of 8,000,001 headers take 320 MB. A walk keeps none.
#[test]
#[ignore = "for a process that may take 200 MB, which the test above starts"]
fn with_little_memory() {
    let octets = nulls(8_000_000);
    assert_eq!(walk(&octets).map(|walked| walked.headers()), Ok(8_000_001));
    assert_eq!(Index::of(&octets).unwrap_err(), DecodeError::OutOfMemory);
}
