//! Makes the calls of `rows.txt`, and compares what they return with what the rows say; and what the types that own
//! their octets say with that.

use rpki_proved::view::*;
use rpki_proved::{crypto, repository::x509, uri};
use std::collections::HashMap;
use std::fmt::Write;

const ROWS: &str = include_str!("rows.txt");

/// Octets that lines `let NAME = OCTETS` name.
type Names<'t> = HashMap<&'t str, Vec<u8>>;

/// What a call gives: its status without a constant's prefix, and its fields as the rows spell them.
type Given = Result<Vec<String>, String>;

fn hex(octets: &[u8]) -> String {
    octets.iter().map(|octet| format!("{octet:02X}")).collect()
}

/// The octets of one token without `N*`, and the rest of the text.
fn token<'t>(text: &'t str, names: &Names) -> (Vec<u8>, &'t str) {
    if let Some(quoted) = text.strip_prefix('"') {
        let (inside, rest) = quoted.split_once('"').expect("the end of a text");
        return (inside.into(), rest);
    }
    let (word, rest) = text.split_at(text.find(' ').unwrap_or(text.len()));
    if let Some(name) = word.strip_prefix('$') {
        return (names[name].clone(), rest);
    }
    let pairs = word.as_bytes().chunks(2);
    let octets = pairs.map(|pair| u8::from_str_radix(std::str::from_utf8(pair).unwrap(), 16).expect("octets"));
    (octets.collect(), rest)
}

/// The octets that a column spells.
fn octets_of(column: &str, names: &Names) -> Vec<u8> {
    let mut octets = Vec::new();
    let mut rest = column.trim();
    while !rest.is_empty() {
        let times = rest.split_once('*').and_then(|(times, after)| Some((times.parse().ok()?, after)));
        let (times, after): (usize, &str) = times.unwrap_or((1, rest));
        let (found, after) = token(after, names);
        octets.extend(found.repeat(times));
        rest = after.trim_start();
    }
    octets
}

/// A field, with its octets in hexadecimal.
fn field(column: &str, names: &Names) -> String {
    let mark = match column.find(['@', '=']) {
        Some(mark) => mark,
        None => return column.into(),
    };
    let end = column[mark..].find(' ').map_or(column.len(), |space| mark + space);
    format!("{} {}", &column[..end], hex(&octets_of(&column[end..], names)))
}

fn yes(is: bool) -> &'static str {
    if is {
        "yes"
    } else {
        "no"
    }
}

/// A part of the octets: where it starts in them, and what it is.
fn part(name: &str, octets: &[u8], part: &[u8]) -> String {
    let start = part.as_ptr() as usize - octets.as_ptr() as usize;
    assert!(start + part.len() <= octets.len(), "{name} is no part of what was passed");
    format!("{name} @{start} {}", hex(part))
}

/// The name of an error as the rows have it: `BadTag` is `BAD_TAG`.
fn status(error: impl std::fmt::Debug) -> String {
    let mut name = String::new();
    for letter in format!("{error:?}").chars() {
        if letter.is_uppercase() && !name.is_empty() {
            name.push('_');
        }
        name.push(letter.to_ascii_uppercase());
    }
    name
}

fn uri_status(error: UriError) -> String {
    format!("URI_{}", status(error))
}

fn class(class: Class) -> u8 {
    match class {
        Class::Universal => 0,
        Class::Application => 1,
        Class::Context => 2,
        Class::Private => 3,
    }
}

fn header(octets: &[u8]) -> Given {
    let header = Header::read(octets).map_err(status)?;
    Ok(vec![
        format!("tag_class {}", class(header.class())),
        format!("constructed {}", yes(header.is_constructed())),
        format!("number {}", header.number()),
        format!("length {}", header.length()),
        format!("size {}", header.size()),
    ])
}

fn walked(octets: &[u8]) -> Given {
    let walked = walk(octets).map_err(status)?;
    Ok(vec![format!("headers {}", walked.headers()), format!("size {}", walked.octets().len())])
}

fn fault_at(octets: &[u8]) -> Given {
    let at = fault(octets).map_err(status)?.ok_or("NO_ANSWER")?;
    assert!(walk(octets).is_err());
    Ok(vec![format!("at {at}")])
}

fn entry(entry: Entry) -> String {
    let contents = entry.start() + entry.octets().len() - entry.contents().len();
    let parent = entry.parent().map_or("none".into(), |parent| parent.place().to_string());
    format!(
        "entry {} {contents} {} {parent} {} {} {}",
        entry.start(),
        entry.start() + entry.octets().len(),
        entry.number(),
        class(entry.class()),
        yes(entry.is_constructed())
    )
}

/// The children of each entry are those that name it their parent.
fn families_agree(index: &Index) {
    for entry in index.entries() {
        let children: Vec<usize> = entry.children().map(|child| child.place()).collect();
        let named = index.entries().filter(|other| other.parent().map(|parent| parent.place()) == Some(entry.place()));
        assert_eq!(children, named.map(|other| other.place()).collect::<Vec<_>>());
    }
}

fn indexed(octets: &[u8]) -> Given {
    let index = Index::of(octets).map_err(status)?;
    families_agree(&index);
    Ok(index.entries().map(entry).collect())
}

fn signed_data(octets: &[u8]) -> Given {
    let signed = SignedData::decode(octets);
    assert_eq!(x509::SignedData::decode(octets.to_vec()).err(), signed.as_ref().err().copied());
    let signed = signed.map_err(status)?;
    Ok(vec![
        part("data", octets, signed.data()),
        part("algorithm", octets, signed.algorithm()),
        part("signature", octets, signed.signature()),
        format!("unused {}", signed.unused_bits()),
        format!("has_parameters {}", yes(signed.has_parameters())),
    ])
}

fn public_key(octets: &[u8]) -> Given {
    let key = PublicKey::decode(octets);
    let owned = crypto::PublicKey::decode(octets.to_vec());
    assert_eq!(owned.as_ref().map(|key| key.bits()), key.as_ref().map(|key| key.bits()));
    let key = key.map_err(status)?;
    Ok(vec![
        format!("format {}", if key.format() == KeyFormat::Rsa { 0 } else { 1 }),
        format!("unused {}", key.unused_bits()),
        part("bits", octets, key.bits()),
    ])
}

fn key_identifier(octets: &[u8]) -> Given {
    let identifier = KeyIdentifier::of_key(octets).map_err(status)?;
    let owned = crypto::PublicKey::decode(octets.to_vec()).unwrap().key_identifier();
    assert_eq!((owned.as_slice(), owned.to_string()), (&identifier.octets()[..], identifier.to_string()));
    assert_eq!(PublicKey::decode(octets).unwrap().identifier(), Ok(identifier));
    assert_eq!(identifier.to_string(), hex(identifier.octets()));
    Ok(vec![format!("identifier = {identifier}")])
}

/// The name that owns its octets passes where the other does.
fn inspected(owned: &x509::Name, name: &Name, profile: Profile) {
    let inspect = |strict| match profile {
        Profile::Rpki => owned.inspect_rpki(strict),
        _ => owned.inspect_router(strict),
    };
    assert!(inspect(false).is_ok());
    assert_eq!(inspect(true).is_ok(), name.inspect(profile).is_ok());
}

fn name_inspect(octets: &[u8], words: &str) -> Given {
    let owned = x509::Name::decode(octets.to_vec());
    let name = Name::decode(octets);
    assert_eq!(owned.as_ref().err(), name.as_ref().err());
    let name = name.map_err(status)?;
    let profile = if words.starts_with("rpki") { Profile::Rpki } else { Profile::Router };
    inspected(&owned.unwrap(), &name, profile);
    if words.ends_with("strict") {
        name.inspect(profile).map_err(|error| match error {
            InspectError::Decode(error) => status(error),
            error => status(error),
        })?;
    }
    Ok(vec![])
}

fn serial(octets: &[u8]) -> Given {
    let serial = Serial::decode(octets);
    assert_eq!(x509::Serial::decode(octets).map(|serial| serial.into_array()), serial.map(|serial| *serial.octets()));
    let serial = serial.map_err(status)?;
    Ok(vec![format!("serial = {}", hex(serial.octets()))])
}

fn time(octets: &[u8]) -> Given {
    let time = Time::decode(octets);
    assert_eq!(x509::Time::decode(octets).map(|time| time.timestamp()), time.map(|time| time.seconds()));
    let time = time.map_err(status)?;
    Ok(vec![
        format!("seconds {}", time.seconds()),
        format!("date {} {} {}", time.year(), time.month(), time.day()),
        format!("clock {} {} {}", time.hour(), time.minute(), time.second()),
    ])
}

fn moment(name: &str, time: Time) -> String {
    let mut text = format!("{name} {} {} {} {}", time.seconds(), time.year(), time.month(), time.day());
    write!(text, " {} {} {}", time.hour(), time.minute(), time.second()).unwrap();
    text
}

fn validity(octets: &[u8]) -> Given {
    let period = Validity::decode(octets);
    assert_eq!(
        x509::Validity::decode(octets).map(|period| (period.not_before().timestamp(), period.not_after().timestamp())),
        period.map(|period| (period.not_before().seconds(), period.not_after().seconds()))
    );
    let period = period.map_err(status)?;
    Ok(vec![moment("not_before", period.not_before()), moment("not_after", period.not_after())])
}

fn extension(octets: &[u8]) -> Given {
    let extension = Extension::decode(octets).map_err(status)?;
    Ok(vec![
        part("id", octets, extension.id().octets()),
        format!("critical {}", yes(extension.is_critical())),
        part("octets", octets, extension.octets()),
    ])
}

fn rsync_parse(octets: &[u8]) -> Given {
    let uri = Rsync::from_octets(octets);
    assert_eq!(
        uri::Rsync::from_slice(octets).as_ref().map(|uri| (uri.authority(), uri.module_name(), uri.path())),
        uri.as_ref().map(|uri| (uri.authority(), uri.module_name(), uri.path()))
    );
    let uri = uri.map_err(uri_status)?;
    assert_eq!(uri.as_str().as_bytes(), octets);
    Ok(vec![
        part("authority", octets, uri.authority().as_bytes()),
        part("module_name", octets, uri.module_name().as_bytes()),
        part("path", octets, uri.path().as_bytes()),
    ])
}

/// The URI of octets that one was read from.
fn owned(octets: &[u8]) -> uri::Rsync {
    uri::Rsync::from_slice(octets).unwrap()
}

fn relative_to(uri: &[u8], base: &[u8]) -> Given {
    let found = Rsync::from_octets(uri).map_err(uri_status)?;
    let base = Rsync::from_octets(base).map_err(|error| format!("SECOND {}", uri_status(error)))?;
    assert_eq!(owned(uri).relative_to(&owned(base.as_str().as_bytes())), found.relative_to(&base));
    let path = found.relative_to(&base).ok_or("NO_ANSWER")?;
    Ok(vec![part("path", uri, path.as_bytes())])
}

fn join(base: &[u8], path: &[u8]) -> Given {
    let base = Rsync::from_octets(base).map_err(uri_status)?;
    let joined = owned(base.as_str().as_bytes()).join(path);
    assert_eq!(joined.map(|uri| uri.to_string()), base.join(path));
    let text = base.join(path).map_err(|error| format!("SECOND {}", uri_status(error)))?;
    let mut room = vec![0; text.len()];
    assert_eq!(base.join_into(path, &mut room), Ok(&text[..]));
    assert_eq!(base.join_into(path, &mut room[1..]), Err(JoinError::TooSmall));
    Ok(vec![format!("text = {}", hex(text.as_bytes()))])
}

fn parent(octets: &[u8]) -> Given {
    let uri = Rsync::from_octets(octets).map_err(uri_status)?;
    let texts = (owned(octets).parent().map(|uri| uri.to_string()), uri.parent().map(|uri| uri.as_str().to_string()));
    assert_eq!(texts.0, texts.1);
    let parent = uri.parent().ok_or("NO_ANSWER")?;
    let again = Rsync::parse(parent.as_str()).unwrap();
    assert_eq!((parent.module_name(), parent.path()), (again.module_name(), again.path()));
    Ok(vec![format!("text = {}", hex(parent.as_str().as_bytes()))])
}

fn https_parse(octets: &[u8]) -> Given {
    let uri = Https::from_octets(octets);
    assert_eq!(
        uri::Https::from_slice(octets).as_ref().map(|uri| (uri.authority(), uri.path())),
        uri.as_ref().map(|uri| (uri.authority(), uri.path()))
    );
    let uri = uri.map_err(uri_status)?;
    Ok(vec![part("authority", octets, uri.authority().as_bytes()), part("path", octets, uri.path().as_bytes())])
}

fn oid_text(contents: &[u8]) -> Given {
    let inner = [&[6, contents.len() as u8][..], contents, &[4, 0]].concat();
    let octets = [&[0x30, inner.len() as u8][..], &inner].concat();
    let extension = Extension::decode(&octets).map_err(status)?;
    Ok(vec![format!("text = {}", hex(extension.id().to_string().as_bytes()))])
}

/// The text of the error that stands for a status; of a second text's the header says so in front.
fn status_text(number: u8) -> Given {
    let text = match number {
        1 => DecodeError::Truncated.to_string(),
        2 => DecodeError::BadTag.to_string(),
        3 => DecodeError::BadLength.to_string(),
        4 => DecodeError::Unexpected.to_string(),
        5 => DecodeError::Content.to_string(),
        21 => format!("second: {}", DecodeError::Content),
        6 => DecodeError::Trailing.to_string(),
        7 => DecodeError::OutOfMemory.to_string(),
        13 => DecodeError::OtherAlgorithm.to_string(),
        32 => InspectError::MissingCommonName.to_string(),
        33 => InspectError::SecondCommonName.to_string(),
        34 => InspectError::SecondSerialNumber.to_string(),
        35 => InspectError::SecondOrganizationName.to_string(),
        36 => InspectError::StringNotPermitted.to_string(),
        37 => InspectError::AttributeNotPermitted.to_string(),
        160 => UriError::InvalidCharacters.to_string(),
        161 => UriError::BadUri.to_string(),
        162 => UriError::LongUri.to_string(),
        178 => format!("second: {}", UriError::LongUri),
        163 => UriError::BadScheme.to_string(),
        164 => UriError::DotSegments.to_string(),
        165 => UriError::EmptySegments.to_string(),
        166 => UriError::LongSegments.to_string(),
        9 => JoinError::TooSmall.to_string(),
        _ => panic!("{number} is no status"),
    };
    Ok(vec![format!("text = {}", hex(text.as_bytes()))])
}

/// What the call gives, and whether it reads all of the octets as one value of DER.
fn make(call: &str, octets: &[u8], second: &[u8]) -> (Given, bool) {
    let (name, words) = call.split_once(' ').unwrap_or((call, ""));
    match name {
        "header" => (header(octets), false),
        "walk" => (walked(octets), false),
        "index" => (indexed(octets), false),
        "fault" => (fault_at(octets), false),
        "signed_data" => (signed_data(octets), true),
        "public_key" => (public_key(octets), true),
        "key_identifier" => (key_identifier(octets), true),
        "name_inspect" => (name_inspect(octets, words), true),
        "serial" => (serial(octets), true),
        "time" => (time(octets), true),
        "validity" => (validity(octets), true),
        "extension" => (extension(octets), true),
        "rsync_parse" => (rsync_parse(octets), false),
        "rsync_relative_to" => (relative_to(octets, second), false),
        "rsync_join" => (join(octets, second), false),
        "rsync_parent" => (parent(octets), false),
        "https_parse" => (https_parse(octets), false),
        "oid_text" => (oid_text(octets), false),
        "status_text" => (status_text(octets[0]), false),
        _ => panic!("there is no call {call}"),
    }
}

/// One octet more is `Trailing`, and each beginning is `Truncated`.
fn whole(call: &str, octets: &[u8]) {
    let more = [octets, &[0]].concat();
    assert_eq!(make(call, &more, &[]).0, Err("TRAILING".into()));
    for size in 0..octets.len() {
        assert_eq!(make(call, &octets[..size], &[]).0, Err("TRUNCATED".into()));
    }
}

#[test]
fn rows() {
    // A line that begins with a bar goes on with the row before it.
    let text = ROWS.replace("\n    |", " |");
    let mut names = Names::new();
    let mut count = 0;
    for line in text.lines() {
        if let Some((name, octets)) = line.strip_prefix("let ").and_then(|line| line.split_once('=')) {
            names.insert(name.trim(), octets_of(octets, &names));
            continue;
        }
        if line.trim().is_empty() || line.starts_with('#') {
            continue;
        }
        let columns: Vec<&str> = line.split('|').map(str::trim).collect();
        let texts = if matches!(columns[0], "rsync_relative_to" | "rsync_join") { 2 } else { 1 };
        let octets = octets_of(columns[1], &names);
        let second = octets_of(if texts == 2 { columns[2] } else { "" }, &names);
        let expected = match columns[texts + 1] {
            "OK" => Ok(columns[texts + 2..].iter().map(|column| field(column, &names)).collect()),
            status => Err(status.into()),
        };
        let (given, is_whole) = make(columns[0], &octets, &second);
        assert_eq!(given, expected, "{line}");
        if is_whole && given.is_ok() {
            whole(columns[0], &octets);
        }
        count += 1;
    }
    assert!(count > 300, "there are {count} rows");
}

/// SEQUENCEs one inside the other, so many of them.
fn nested(levels: usize) -> Vec<u8> {
    let mut reversed: Vec<u8> = Vec::new();
    for _ in 0..levels {
        let length = reversed.len();
        let octets: Vec<u8> = length
            .to_le_bytes()
            .into_iter()
            .take(length.to_le_bytes().len() - length.leading_zeros() as usize / 8)
            .collect();
        if length < 128 {
            reversed.push(length as u8);
        } else {
            reversed.extend(&octets);
            reversed.push(0x80 + octets.len() as u8);
        }
        reversed.push(0x30);
    }
    reversed.reverse();
    reversed
}

#[test]
fn deep() {
    let octets = nested(100_001);
    assert_eq!(octets.len(), 483_407);
    assert_eq!(walk(&octets).unwrap().headers(), 100_001);
    let index = Index::of(&octets).unwrap();
    assert_eq!((index.len(), index.root().descendants().count()), (100_001, 100_000));
    assert!(index.entries().skip(1).all(|entry| entry.parent().unwrap().place() + 1 == entry.place()));
}

/// Dotted forms as `openssl asn1parse` shows them, and arcs that it has no room for.
#[test]
fn identifiers() {
    let rows: [(&[u8], &str); 6] = [
        (b"\x2a\x86\x48\x86\xf7\x0d\x01\x01\x0b", "1.2.840.113549.1.1.11"),
        (b"\x00", "0.0"),
        (b"\x4f", "1.39"),
        (b"\x88\x37", "2.999"),
        (
            b"\x2a\x82\xff\xff\xff\xff\xff\xff\xff\xff\xff\xff\xff\xff\xff\xff\xff\xff\x7f",
            "1.2.1993841993677373809355710590420516863",
        ),
        (b"\x2a\xff\xff\xff\xff\xff\xff\xff\xff\xff\xff\xff\xff\xff\xff\xff\xff\xff\xff\x7f\x01", "1.2.?.1"),
    ];
    for (contents, dotted) in rows {
        let inner = [&[6, contents.len() as u8][..], contents, &[4, 0]].concat();
        let octets = [&[0x30, inner.len() as u8][..], &inner].concat();
        assert_eq!(Extension::decode(&octets).unwrap().id().to_string(), dotted);
    }
}

/// Errors go into a `Box<dyn Error>`, and say what is wrong.
#[test]
fn errors() {
    fn shown(text: &str) -> Result<(), Box<dyn std::error::Error>> {
        Rsync::parse(text)?.join_into("b", &mut [])?;
        Ok(())
    }
    assert_eq!(shown("rsync://a/../b").unwrap_err().to_string(), "URI with dot path segments");
    assert_eq!(shown("rsync://a/b/").unwrap_err().to_string(), "buffer too small");
    assert_eq!(DecodeError::Trailing.to_string(), "octets after the value");
}
