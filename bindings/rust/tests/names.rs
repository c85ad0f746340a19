//! Small names, whose first broken rule is known: of those of certificates of the RPKI and of those of routers.
//! `RPKI_NAME_ROWS` names a file with more of them, which tests/linked/names/rows.py makes.

use rpki_proved::repository::error::InspectionError;
use rpki_proved::repository::x509::Name;

/// The octets of a name, and the status in C of the rule that it breaks first, of the RPKI and of routers; 0 of none.
const ROWS: &str = "\
300c310a30080603550403130141 0 0
300b3109300706035504031300 0 0
300c310a300806035504030c0141 36 0
300c310a30080603550405130141 32 32
3018310a300806035504030c0140310a300806035504050c0141 36 0
3018310a30080603550403130141310a30080603550403130141 33 33
";

/// The texts by the statuses. A string that is not permitted has another text in a router's name.
fn text(status: &str, string: &'static str) -> Option<&'static str> {
    match status {
        "0" => None,
        "32" => Some("missing common name"),
        "33" => Some("multiple common names"),
        "34" => Some("multiple serial numbers"),
        "35" => Some("multiple organization names"),
        "36" => Some(string),
        "37" => Some("invalid name"),
        _ => panic!("{status} is no status of a name"),
    }
}

fn octets(digits: &str) -> Vec<u8> {
    let pairs = digits.as_bytes().chunks(2);
    pairs.map(|pair| u8::from_str_radix(std::str::from_utf8(pair).unwrap(), 16).unwrap()).collect()
}

fn told(found: Result<(), InspectionError>) -> Option<String> {
    found.err().map(|error| error.to_string())
}

fn compare(row: &str) {
    let words: Vec<&str> = row.split(' ').collect();
    let name = Name::decode(octets(words[0])).unwrap();
    assert_eq!(told(name.inspect_rpki(true)).as_deref(), text(words[1], "invalid name"), "{row}");
    let string = "unpermitted string variant in common name";
    assert_eq!(told(name.inspect_router(true)).as_deref(), text(words[2], string), "{row}");
    assert!(name.inspect_rpki(false).is_ok() && name.inspect_router(false).is_ok(), "{row}");
}

#[test]
fn strict_names() {
    ROWS.lines().for_each(compare);
    if let Ok(file) = std::env::var("RPKI_NAME_ROWS") {
        let rows = std::fs::read_to_string(file).unwrap();
        assert!(rows.lines().count() > 8000);
        rows.lines().for_each(compare);
    }
}
