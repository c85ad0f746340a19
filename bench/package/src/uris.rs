//! URIs.

use crate::{plain, row, title};
use bytes::Bytes;
use rpki_proved::uri::{Https, Rsync};
use std::collections::hash_map::{DefaultHasher, HashMap};
use std::hash::{Hash, Hasher};
use std::hint::black_box;

fn hash_of(value: &impl Hash) -> u64 {
    let mut state = DefaultHasher::new();
    value.hash(&mut state);
    state.finish()
}

fn read(text: &str) -> (Rsync, plain::Rsync) {
    let bytes = Bytes::copy_from_slice(text.as_bytes());
    (Rsync::from_bytes(bytes.clone()).unwrap(), plain::Rsync::from_bytes(bytes.clone()).unwrap())
}

/// A text of the same length that is another URI.
fn other_end(text: &str) -> String {
    text[..text.len() - 1].to_string() + "_"
}

/// The same URI with its scheme and its authority in upper case.
fn in_upper_case(text: &str) -> String {
    let end = 8 + text[8..].find('/').unwrap_or(text.len() - 8);
    text[..end].to_ascii_uppercase() + &text[end..]
}

fn agree(file: &(Rsync, plain::Rsync), base: &(Rsync, plain::Rsync), name: &[u8]) {
    assert_eq!(file.0.relative_to(&base.0), file.1.relative_to(&base.1));
    assert_eq!(file.0.parent().map(|uri| uri.to_string()), file.1.parent().map(|uri| uri.as_str().into()));
    assert_eq!(base.0.join(name).unwrap().as_str(), base.1.join(name).unwrap().as_str());
    assert_eq!(file.0.canonical_module(), file.1.canonical_module());
    assert_eq!(file.0.canonical_authority(), file.1.canonical_authority());
    assert_eq!(base.0.is_parent_of(&file.0), base.1.is_parent_of(&file.1));
}

/// Times the calls on a base, and on a file of this name below it.
pub fn measure(base_text: &str, name: &str) {
    let file_text = base_text.to_string() + name;
    let (base, file) = (read(base_text), read(&file_text));
    agree(&file, &base, name.as_bytes());
    title(&format!("rsync, {} octets", file_text.len()));
    let bytes = Bytes::copy_from_slice(file_text.as_bytes());
    row(
        "from_bytes",
        || _ = black_box(Rsync::from_bytes(black_box(&bytes).clone())),
        || _ = black_box(plain::Rsync::from_bytes(black_box(&bytes).clone())),
    );
    row(
        "from_slice",
        || _ = black_box(Rsync::from_slice(black_box(&bytes))),
        || _ = black_box(plain::Rsync::from_bytes(Bytes::copy_from_slice(black_box(&bytes)))),
    );
    let refused = Bytes::from(file_text.replacen("://", "://<", 1));
    assert!(Rsync::from_bytes(refused.clone()).is_err() && plain::Rsync::from_bytes(refused.clone()).is_none());
    row(
        "from_slice, refused",
        || _ = black_box(Rsync::from_slice(black_box(&refused)).is_ok()),
        || _ = black_box(plain::Rsync::from_bytes(Bytes::copy_from_slice(black_box(&refused))).is_some()),
    );
    row("clone", || _ = black_box(black_box(&file.0).clone()), || _ = black_box(black_box(&file.1).clone()));
    row("parent", || _ = black_box(black_box(&file.0).parent()), || _ = black_box(black_box(&file.1).parent()));
    row(
        "join",
        || _ = black_box(black_box(&base.0).join(black_box(name.as_bytes()))),
        || _ = black_box(black_box(&base.1).join(black_box(name.as_bytes()))),
    );
    row(
        "clone, path_into_dir",
        || black_box(&file.0).clone().path_into_dir(),
        || black_box(&file.1).clone().path_into_dir(),
    );
    measure_pairs(&file, &base);
    measure_equality(&file, &file_text);
    row("hash", || _ = black_box(hash_of(black_box(&file.0))), || _ = black_box(hash_of(black_box(&file.1))));
    measure_map(base_text);
}

/// Times looking up one of a thousand files of a folder.
fn measure_map(base_text: &str) {
    let files = (0..1_000).map(|number| read(&format!("{base_text}{number}.cer")));
    let (mut ours, mut others) = (HashMap::new(), HashMap::new());
    for (number, file) in files.enumerate() {
        ours.insert(file.0, number);
        others.insert(file.1, number);
    }
    let sought = read(&format!("{base_text}517.cer"));
    assert!(ours.get(&sought.0) == Some(&517) && others.get(&sought.1) == Some(&517));
    row(
        "map of 1,000, get",
        || _ = black_box(ours.get(black_box(&sought.0))),
        || _ = black_box(others.get(black_box(&sought.1))),
    );
}

fn measure_pairs(file: &(Rsync, plain::Rsync), base: &(Rsync, plain::Rsync)) {
    row(
        "relative_to",
        || _ = black_box(black_box(&file.0).relative_to(black_box(&base.0))),
        || _ = black_box(black_box(&file.1).relative_to(black_box(&base.1))),
    );
    let others = read(&other_end(file.0.as_str()));
    for (kind, other) in [("below", file), ("itself", base), ("another", &others)] {
        let uri = if kind == "below" || kind == "itself" { base } else { file };
        assert_eq!(uri.0.is_parent_of(&other.0), uri.1.is_parent_of(&other.1));
        row(
            &format!("is_parent_of, {kind}"),
            || _ = black_box(black_box(&uri.0).is_parent_of(black_box(&other.0))),
            || _ = black_box(black_box(&uri.1).is_parent_of(black_box(&other.1))),
        );
    }
    for (kind, other) in [("the same", file), ("another end", &others)] {
        assert_eq!(file.0.is_identical_to(&other.0), file.1.is_identical_to(&other.1));
        row(
            &format!("is_identical_to, {kind}"),
            || _ = black_box(black_box(&file.0).is_identical_to(black_box(&other.0))),
            || _ = black_box(black_box(&file.1).is_identical_to(black_box(&other.1))),
        );
    }
    let upper = read(&in_upper_case(file.0.as_str()));
    for (kind, uri) in [("lower", file), ("upper", &upper)] {
        row(
            &format!("canonical_authority, {kind}"),
            || _ = black_box(black_box(&uri.0).canonical_authority()),
            || _ = black_box(black_box(&uri.1).canonical_authority()),
        );
        row(
            &format!("canonical_module, {kind}"),
            || _ = black_box(black_box(&uri.0).canonical_module()),
            || _ = black_box(black_box(&uri.1).canonical_module()),
        );
    }
}

fn measure_equality(file: &(Rsync, plain::Rsync), text: &str) {
    for (kind, text) in [
        ("the same", text.to_string()),
        ("another end", other_end(text)),
        ("in upper case", in_upper_case(text)),
        ("a text", text.to_string()),
    ] {
        let other = read(&text);
        assert_eq!(file.0 == other.0, file.1 == other.1);
        if kind == "a text" {
            row(
                "==, a text",
                || _ = black_box(black_box(&file.0) == black_box(&text)),
                || _ = black_box(black_box(&file.1) == black_box(&text)),
            );
            continue;
        }
        row(
            &format!("==, {kind}"),
            || _ = black_box(black_box(&file.0) == black_box(&other.0)),
            || _ = black_box(black_box(&file.1) == black_box(&other.1)),
        );
    }
}

/// Times the calls on https URIs.
pub fn measure_https() {
    let text = "https://rrdp.rpki.example/rrdp/6fc98d4b-4c75-4c1f-8f2b-5f2cdb3b5a4d/1234/notification.xml";
    title(&format!("https, {} octets", text.len()));
    let read = |text: &str| {
        let bytes = Bytes::copy_from_slice(text.as_bytes());
        (Https::from_bytes(bytes.clone()).unwrap(), plain::Https::from_bytes(bytes.clone()).unwrap())
    };
    let uri = read(text);
    let bytes = Bytes::from_static(text.as_bytes());
    row(
        "from_slice",
        || _ = black_box(Https::from_slice(black_box(&bytes))),
        || _ = black_box(plain::Https::from_bytes(Bytes::copy_from_slice(black_box(&bytes)))),
    );
    assert_eq!(uri.0.join(b"snapshot.xml").unwrap().as_str(), uri.1.join(b"snapshot.xml").unwrap().as_str());
    row(
        "join",
        || _ = black_box(black_box(&uri.0).join(black_box(b"snapshot.xml"))),
        || _ = black_box(black_box(&uri.1).join(black_box(b"snapshot.xml"))),
    );
    for (kind, text) in
        [("the same", text.to_string()), ("another end", other_end(text)), ("in upper case", in_upper_case(text))]
    {
        let other = read(&text);
        assert_eq!(uri.0 == other.0, uri.1 == other.1);
        row(
            &format!("==, {kind}"),
            || _ = black_box(black_box(&uri.0) == black_box(&other.0)),
            || _ = black_box(black_box(&uri.1) == black_box(&other.1)),
        );
        row(
            &format!("eq_authority, {kind}"),
            || _ = black_box(black_box(&uri.0).eq_authority(black_box(&other.0))),
            || _ = black_box(black_box(&uri.1).eq_authority(black_box(&other.1))),
        );
    }
    row("hash", || _ = black_box(hash_of(black_box(&uri.0))), || _ = black_box(hash_of(black_box(&uri.1))));
}
