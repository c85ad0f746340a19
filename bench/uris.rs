//! The five calls on rsync URIs in plain Rust on `&str`, as a measure: what `crates/hostile_calls` does, with the same
//! words and the same output.

use std::env;
use std::hint::black_box;

struct Uri {
    text: String,
    path_start: usize,
}

impl Uri {
    fn new(text: String) -> Option<Uri> {
        if !text.bytes().all(is_uri_byte) {
            return None;
        }
        let rest = text.strip_prefix("rsync://")?;
        if !checked(rest) {
            return None;
        }
        let (authority, tail) = rest.split_once('/')?;
        let (module, _) = tail.split_once('/')?;
        let path_start = 8 + authority.len() + 1 + module.len() + 1;
        Some(Uri { text, path_start })
    }

    fn module(&self) -> &str {
        &self.text[..self.path_start]
    }

    fn path(&self) -> &str {
        &self.text[self.path_start..]
    }

    fn join(&self, path: &str) -> Option<Uri> {
        if !path.bytes().all(is_uri_byte) || !checked(path) || self.text.len() + 1 + path.len() >= 3072 {
            return None;
        }
        let mut text = String::with_capacity(self.text.len() + 1 + path.len());
        text.push_str(&self.text);
        if !self.path().is_empty() && !self.path().ends_with('/') {
            text.push('/');
        }
        text.push_str(path);
        Some(Uri { text, path_start: self.path_start })
    }

    /// A parent shares no memory here: its text is a part of this one's.
    fn parent(&self) -> Option<&str> {
        let path = self.path().strip_suffix('/').unwrap_or(self.path());
        if self.path().is_empty() {
            return None;
        }
        let len = path.rfind('/').map_or(0, |at| at + 1);
        Some(&self.text[..self.path_start + len])
    }

    fn relative_to(&self, base: &Uri) -> Option<&str> {
        if !self.module().eq_ignore_ascii_case(base.module()) {
            return None;
        }
        let below = base.path().strip_suffix('/').unwrap_or(base.path());
        if below.is_empty() {
            return Some(self.path());
        }
        let rest = self.path().strip_prefix(below)?;
        if rest.is_empty() { Some(rest) } else { rest.strip_prefix('/') }
    }
}

fn is_uri_byte(b: u8) -> bool {
    matches!(b, b'!' | b'$'..=b';' | b'=' | b'A'..=b'Z' | b'_' | b'a'..=b'z' | b'~')
}

fn checked(path: &str) -> bool {
    let mut last = false;
    path.split('/').all(|segment| {
        let good = !last && segment != "." && segment != ".." && segment.len() < 256;
        last = segment.is_empty();
        good
    })
}

fn answer(call: &str, base: &Uri, file: &Uri) -> usize {
    match call {
        "join" => base.join("file").map_or(0, |uri| black_box(uri).text.len()),
        "parent" => file.parent().map_or(0, str::len),
        "relative_to" => file.relative_to(base).map_or(0, str::len),
        "is_parent_of" => usize::from(file.relative_to(base).is_some_and(|path| !path.is_empty())),
        _ => usize::from(file.relative_to(file).is_some_and(str::is_empty)),
    }
}

fn main() {
    let words: Vec<String> = env::args().skip(1).collect();
    let (call, segments, times) = (&words[0], words[1].parse().unwrap(), words[2].parse().unwrap());
    let base = Uri::new("rsync://host/module/".to_string() + &"segment/".repeat(segments)).unwrap();
    let file = base.join("file").unwrap();
    let mut sum = 0usize;
    for _ in 0..times {
        sum = sum.wrapping_add(answer(call, black_box(&base), black_box(&file)));
    }
    println!("{call} {sum}");
}
