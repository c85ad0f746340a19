//! Resources, read and compared with the rows that tests/linked/resources/rows.py writes. The variable
//! `RPKI_RESOURCE_ROWS` names their file; without it the examples of RFC 3779 alone are read. Sets are compared with
//! those of the standard library.

use rpki_proved::repository::resources::{
    as_encompass, ip_encompass, Addr, AddressFamily, AddressRange, AsBlock, AsBlocks, AsRange, AsResources, Asn,
    InheritedResources, IpBlock, IpBlocks, IpResources, Ipv4Blocks, Ipv6Blocks, OtherFamily, Prefix, ResourceSet,
    ResourcesChoice,
};
use rpki_proved::DecodeError;
use std::collections::hash_map::DefaultHasher;
use std::collections::BTreeSet;
use std::hash::{Hash, Hasher};
use std::net::{Ipv4Addr, Ipv6Addr};

const ERRORS: [DecodeError; 6] = [
    DecodeError::Truncated,
    DecodeError::BadTag,
    DecodeError::BadLength,
    DecodeError::Unexpected,
    DecodeError::Content,
    DecodeError::Trailing,
];

/// RFC 3779, appendices B and C, without what RFC 6487 4.8.10 and 4.8.11 forbid, and with it.
const EXAMPLES: &str = "\
ip 3034302a0402000130240304040a00200304000a00400303000a01300c0304040a02300304000a02400303000a033006040200020500 0 \
4:0a002000000000000000000000000000:0a002fff000000000000000000000000:0:10.0.32.0/20 \
4:0a004000000000000000000000000000:0a0040ff000000000000000000000000:0:10.0.64.0/24 \
4:0a010000000000000000000000000000:0a01ffff000000000000000000000000:0:10.1.0.0/16 \
4:0a023000000000000000000000000000:0a0240ff000000000000000000000000:0:10.2.48.0-10.2.64.255 \
4:0a030000000000000000000000000000:0a03ffff000000000000000000000000:0:10.3.0.0/16 \
6:00000000000000000000000000000000:00000000000000000000000000000000:1:inherit
ip 3022300f0402000130090302000a030304ac10300f040200023009030700200100000002 0 \
4:0a000000000000000000000000000000:0affffff000000000000000000000000:0:10.0.0.0/8 \
4:ac100000000000000000000000000000:ac1fffff000000000000000000000000:0:172.16.0.0/12 \
6:20010000000200000000000000000000:200100000002ffffffffffffffffffff:0:2001:0:2::/48
ip 302c3010040300010130090302000a030304ac10300704030001020500300f040200023009030700200100000002 5
as 3016a014301202020087300802020bb802020f9f02021389 0 135:135:0:AS135 3000:3999:0:AS3000-AS3999 5001:5001:0:AS5001
as 301aa014301202020087300802020bb802020f9f02021389a1020500 6
ipe 300c300a0402000130040302000a 300d300b0402000130050303000a01 0 1
ipe 300d300b0402000130050303000a01 300c300a0402000130040302000a 0 0
ipe 30083006040200010500 300c300a0402000130040302000a 10 -
ase 3004a0020500 3007a0053003020105 10 -
ase 3007a0053003020105 3004a0020500 0 1
ipe 3000 300c300a0402000130040302000a 1 -
ipe 300c300a0402000130040302000a 0500 20 -";

fn octets_of(digits: &str) -> Vec<u8> {
    if digits == "-" {
        return Vec::new();
    }
    let pairs = digits.as_bytes().chunks(2);
    pairs.map(|pair| u8::from_str_radix(std::str::from_utf8(pair).unwrap(), 16).unwrap()).collect()
}

/// The entries that a row would have of one family.
fn entries(found: Option<IpResources>, is_v4: bool) -> Vec<String> {
    let family = if is_v4 { 4 } else { 6 };
    let octets = |address: Addr| -> String {
        let all = address.to_bits().to_be_bytes();
        let used = if is_v4 { &all[..4] } else { &all[..] };
        let digits: String = used.iter().map(|octet| format!("{octet:02x}")).collect();
        format!("{digits:0<32}")
    };
    let entry = |block: IpBlock| {
        let text = if is_v4 { block.display_v4().to_string() } else { block.display_v6().to_string() };
        format!("{family}:{}:{}:0:{text}", octets(block.min()), octets(block.max()))
    };
    match found.as_ref().map(IpResources::as_choice) {
        None => Vec::new(),
        Some(ResourcesChoice::Blocks(blocks)) => blocks.iter().map(entry).collect(),
        Some(choice) => {
            assert!(choice.is_inherited());
            vec![format!("{family}:{}:{}:1:inherit", "0".repeat(32), "0".repeat(32))]
        }
    }
}

fn ip(number: usize, octets: &[u8], wanted: Result<&[&str], DecodeError>) {
    let found = IpResources::decode_families(octets).map(|(v4, v6)| {
        // Contents are spelled in one way.
        let told = |found: &Option<IpResources>| found.clone().unwrap_or_else(IpResources::missing);
        let again = IpResources::encode_families(&told(&v4), &told(&v6)).unwrap();
        assert_eq!(again.as_deref(), Some(octets), "row {number}");
        for (found, is_v4) in [(&v4, true), (&v6, false)] {
            if let Some(Ok(blocks)) = found.as_ref().map(IpResources::to_blocks) {
                round_trip(&blocks, is_v4);
            }
        }
        [entries(v4, true), entries(v6, false)].concat()
    });
    assert_eq!(found, wanted.map(|words| words.iter().map(|word| word.to_string()).collect()), "row {number}");
}

/// The text of a set is read as the set again.
fn round_trip(blocks: &IpBlocks, is_v4: bool) {
    let again: IpBlocks = if is_v4 {
        Ipv4Blocks::from(blocks.clone()).to_string().parse::<Ipv4Blocks>().unwrap().into()
    } else {
        Ipv6Blocks::from(blocks.clone()).to_string().parse::<Ipv6Blocks>().unwrap().into()
    };
    assert_eq!(&again, blocks);
    assert_eq!(&blocks.iter().collect::<IpBlocks>(), blocks);
    assert!(blocks.iter().all(|block| blocks.contains_block(block)));
}

fn numbers(number: usize, octets: &[u8], wanted: Result<&[&str], DecodeError>) {
    let entry = |block: AsBlock| format!("{}:{}:0:{block}", block.min().into_u32(), block.max().into_u32());
    let found = AsResources::decode(octets).map(|found| match found.to_blocks() {
        _ if found.encode().as_deref() != Some(octets) => panic!("row {number}: {found} is written otherwise"),
        Ok(blocks) => {
            assert_eq!(blocks.to_string().parse::<AsBlocks>().as_ref(), Ok(&blocks), "row {number}");
            assert_eq!(found.to_string(), blocks.to_string(), "row {number}");
            blocks.iter().map(entry).collect()
        }
        Err(_) => {
            assert_eq!(found.to_string(), "inherit");
            vec!["0:0:1:inherit".to_string()]
        }
    });
    assert_eq!(found, wanted.map(|words| words.iter().map(|word| word.to_string()).collect()), "row {number}");
}

/// The answer on two contents, by the call and by the values that are read of them.
fn encompass(number: usize, is_ip: bool, words: &[&str]) {
    let (outer, inner) = (octets_of(words[1]), octets_of(words[2]));
    let status: usize = words[3].parse().unwrap();
    let wanted = match status {
        0 => Ok(Some(words[4] == "1")),
        10 => Ok(None),
        status => Err(ERRORS[status % 16 - 1]),
    };
    let found = if is_ip { ip_encompass(&outer, &inner) } else { as_encompass(&outer, &inner) };
    assert_eq!(found, wanted, "row {number}");
    if let Ok(Some(answer)) = wanted {
        let again = if is_ip { are_addresses_within(&outer, &inner) } else { are_numbers_within(&outer, &inner) };
        assert_eq!(again, answer, "row {number}");
    }
}

fn are_addresses_within(outer: &[u8], inner: &[u8]) -> bool {
    let (outer, inner) = (IpResources::decode_families(outer).unwrap(), IpResources::decode_families(inner).unwrap());
    let is_within = |inner: Option<IpResources>, outer: Option<IpResources>| {
        let listed = |found: Option<IpResources>| found.and_then(|found| found.to_blocks().ok()).unwrap_or_default();
        listed(outer).contains(&listed(inner))
    };
    is_within(inner.0, outer.0) && is_within(inner.1, outer.1)
}

fn are_numbers_within(outer: &[u8], inner: &[u8]) -> bool {
    let listed = |octets: &[u8]| AsResources::decode(octets).unwrap().to_blocks().unwrap_or_default();
    listed(outer).contains(&listed(inner))
}

/// What a row says of contents: the entries, or the error.
fn wanted<'a>(words: &'a [&'a str]) -> Result<&'a [&'a str], DecodeError> {
    match words[2].parse::<usize>().unwrap() {
        0 => Ok(&words[3..]),
        status => Err(ERRORS[status - 1]),
    }
}

fn row(number: usize, line: &str) {
    let words: Vec<&str> = line.split(' ').collect();
    match words[0] {
        "ip" => ip(number, &octets_of(words[1]), wanted(&words)),
        "as" => numbers(number, &octets_of(words[1]), wanted(&words)),
        "ipe" => encompass(number, true, &words),
        "ase" => encompass(number, false, &words),
        _ => {}
    }
}

#[test]
fn rows() {
    EXAMPLES.lines().enumerate().for_each(|(number, line)| row(number + 1, line));
    if let Ok(path) = std::env::var("RPKI_RESOURCE_ROWS") {
        let text = std::fs::read_to_string(path).unwrap();
        assert!(text.lines().count() > 1_000);
        text.lines().enumerate().for_each(|(number, line)| row(number + 1, line));
    }
}

/// Numbers that look random, the same in each run.
struct Source(u64);

impl Source {
    fn below(&mut self, end: u64) -> u64 {
        self.0 = self.0.wrapping_mul(6364136223846793005).wrapping_add(1442695040888963407);
        (self.0 >> 33) % end
    }

    /// A set of numbers below 40, as the standard library has it, and as blocks.
    fn set(&mut self) -> (BTreeSet<u32>, AsBlocks) {
        let mut set = BTreeSet::new();
        let mut blocks = Vec::new();
        for _ in 0..self.below(6) {
            let (low, size) = (self.below(40) as u32, self.below(8) as u32);
            set.extend(low..=low + size);
            blocks.push(AsBlock::from((Asn::from_u32(low), Asn::from_u32(low + size))));
        }
        (set, blocks.into_iter().collect())
    }
}

fn numbers_of(blocks: &AsBlocks) -> BTreeSet<u32> {
    blocks.iter().flat_map(|block| block.min().into_u32()..=block.max().into_u32()).collect()
}

#[test]
fn sets() {
    let mut source = Source(3779);
    for _ in 0..5_000 {
        let ((a, one), (b, other)) = (source.set(), source.set());
        assert_eq!(numbers_of(&one), a);
        assert_eq!(one.contains(&other), b.is_subset(&a), "{one} and {other}");
        assert_eq!(numbers_of(&one.intersection(&other)), &a & &b, "{one} and {other}");
        assert_eq!(numbers_of(&one.union(&other)), &a | &b, "{one} and {other}");
        assert_eq!(numbers_of(&one.difference(&other)), &a - &b, "{one} and {other}");
        // A set has one list.
        assert_eq!(one == other, a == b, "{one} and {other}");
        for made in [one.intersection(&other), one.union(&other), one.difference(&other)] {
            assert_eq!(made.to_string().parse(), Ok(made.clone()));
            assert_eq!(made.iter().collect::<AsBlocks>(), made);
        }
    }
}

#[test]
fn texts() {
    for (text, wanted) in [
        ("10.0.0.0/8", "10.0.0.0/8"),
        ("10.0.0.0-10.255.255.255", "10.0.0.0/8"),
        ("10.0.0.1", "10.0.0.1/32"),
        ("10.0.0.0-10.0.0.5", "10.0.0.0-10.0.0.5"),
        ("10.1.0.0/16, 10.0.0.0/16", "10.0.0.0/15"),
        (" 10.0.0.9 ,10.0.0.7", "10.0.0.7/32, 10.0.0.9/32"),
        ("0.0.0.0/0", "0.0.0.0/0"),
        ("", ""),
    ] {
        assert_eq!(text.parse::<Ipv4Blocks>().map(|blocks| blocks.to_string()), Ok(wanted.to_string()), "{text}");
    }
    for (text, wanted) in [
        ("2001:db8::/32", "2001:db8::/32"),
        ("2001:db8:0:0:0:0:0:1", "2001:db8::1/128"),
        ("::-ffff:ffff:ffff:ffff:ffff:ffff:ffff:ffff", "::/0"),
        ("::1-::5", "::1-::5"),
    ] {
        assert_eq!(text.parse::<Ipv6Blocks>().map(|blocks| blocks.to_string()), Ok(wanted.to_string()), "{text}");
    }
    for text in ["10.0.0.0/33", "10.0.0.0/", "10.0.0/8", "10.0.0.5-10.0.0.4", "10.0.0.0-", "::/0", "10.0.0.0/8,", "1"] {
        assert!(text.parse::<Ipv4Blocks>().is_err(), "{text}");
    }
    for text in ["::/129", "10.0.0.0/8", "::5-::4", "1::2::3", "-"] {
        assert!(text.parse::<Ipv6Blocks>().is_err(), "{text}");
    }
    for (text, wanted) in [("AS0", 0), ("as64496", 64496), ("4294967295", u32::MAX), ("As07", 7)] {
        assert_eq!(text.parse(), Ok(Asn::from_u32(wanted)), "{text}");
    }
    for text in ["", "AS", "AS-1", "AS+1", "4294967296", "ASN1", "AS1-AS2", " 1", "\u{e9}1"] {
        assert!(text.parse::<Asn>().is_err(), "{text}");
    }
    for (text, wanted) in [("AS1", "AS1"), ("1-5", "AS1-AS5"), ("AS3-as3", "AS3")] {
        assert_eq!(text.parse::<AsBlock>().map(|block| block.to_string()), Ok(wanted.to_string()), "{text}");
    }
    for text in ["AS5-AS4", "AS1-", "-AS1", "AS1-AS2-AS3"] {
        assert!(text.parse::<AsBlock>().is_err(), "{text}");
    }
}

#[test]
fn addresses() {
    let prefix = Prefix::new(Ipv4Addr::new(10, 1, 2, 3), 16);
    assert_eq!((prefix.to_v4(), prefix.addr_len()), (Ipv4Addr::new(10, 1, 0, 0), 16));
    assert_eq!(prefix.range().1.to_v4(), Ipv4Addr::new(10, 1, 255, 255));
    let whole = Prefix::new(Ipv6Addr::LOCALHOST, 0);
    assert_eq!((whole, whole.max()), (Prefix::all(), Addr::from_bits(u128::MAX)));
    assert_eq!(Prefix::new(Ipv6Addr::LOCALHOST, 200), Prefix::new(Ipv6Addr::LOCALHOST, 128));
    assert!(IpBlocks::all().contains(&IpBlocks::empty()) && !IpBlocks::empty().contains(&IpBlocks::all()));
    assert_eq!(IpBlocks::all().difference(&IpBlocks::all()), IpBlocks::empty());
    assert_eq!(AsBlocks::all().iter().map(|block| block.asn_count()).collect::<Vec<_>>(), [u32::MAX]);
    assert!(!IpResources::blocks(IpBlocks::empty()).is_present());
    assert!(!AsResources::blocks(AsBlocks::empty()).is_present());
}

fn hash_of<T: Hash>(value: &T) -> u64 {
    let mut hasher = DefaultHasher::new();
    value.hash(&mut hasher);
    hasher.finish()
}

fn v4(text: &str) -> Addr {
    text.parse::<Ipv4Addr>().unwrap().into()
}

fn v6(text: &str) -> Addr {
    text.parse::<Ipv6Addr>().unwrap().into()
}

/// Whether two values are equal, each way; equal ones have one hash.
fn are_equal<T: PartialEq + Hash>(one: &T, other: &T) -> bool {
    let (there, back) = (one == other, other == one);
    assert_eq!(there, back);
    assert!(!there || hash_of(one) == hash_of(other));
    there
}

/// Blocks and lists are equal where they are one set, whatever their form.
#[test]
fn equal_blocks() {
    let range = |low: &str, high: &str| IpBlock::Range(AddressRange::new(v4(low), v4(high)));
    let prefix = |address: &str, len| IpBlock::Prefix(Prefix::new(v4(address), len));
    let whole = IpBlock::Range(AddressRange::new(v6("::"), v6("ffff:ffff:ffff:ffff:ffff:ffff:ffff:ffff")));
    assert_eq!(IpBlock::all(), whole);
    for (one, other, wanted) in [
        (prefix("10.0.0.0", 8), range("10.0.0.0", "10.255.255.255"), false),
        // The last address of a range that is written of IP version 4 has ones after its 32 bits.
        (prefix("10.0.0.0", 8), IpBlock::from_v4_str("10.0.0.0-10.255.255.255").unwrap(), true),
        (prefix("10.0.0.0", 8), IpBlock::from((v4("10.0.0.0"), v4("10.255.255.255").to_max(32))), true),
        (prefix("10.0.0.0", 8), prefix("10.9.8.7", 8), true),
        (prefix("10.0.0.0", 8), prefix("10.0.0.0", 9), false),
        (prefix("10.0.0.0", 9), prefix("10.128.0.0", 9), false),
        (prefix("10.0.0.1", 32), IpBlock::from_v4_str("10.0.0.1").unwrap(), true),
        (prefix("10.0.0.1", 32), IpBlock::from_v4_str("10.0.0.1-10.0.0.1").unwrap(), true),
        (range("10.0.0.0", "10.0.0.5"), range("10.0.0.0", "10.0.0.6"), false),
        (range("10.0.0.0", "10.0.0.5"), range("10.0.0.1", "10.0.0.5"), false),
        (prefix("0.0.0.0", 0), whole, true),
    ] {
        assert_eq!((one == other, other == one), (wanted, wanted), "{one:?} and {other:?}");
        let lists: [IpBlocks; 2] = [[one].into_iter().collect(), [other].into_iter().collect()];
        assert_eq!(are_equal(&lists[0], &lists[1]), wanted, "{one:?} and {other:?}");
    }
    let id = |number| AsBlock::Id(Asn::from_u32(number));
    let numbers = |low, high| AsBlock::Range(AsRange::new(Asn::from_u32(low), Asn::from_u32(high)));
    for (one, other, wanted) in [
        (id(5), numbers(5, 5), true),
        (id(5), AsBlock::from((Asn::from_u32(5), Asn::from_u32(5))), true),
        (id(5), id(6), false),
        (numbers(3000, 3999), numbers(3000, 3999), true),
        (numbers(3000, 3999), numbers(3000, 4000), false),
        (numbers(3000, 3999), numbers(3001, 3999), false),
        (numbers(0, u32::MAX), AsBlock::all(), true),
    ] {
        assert_eq!((one == other, other == one), (wanted, wanted), "{one} and {other}");
        let lists: [AsBlocks; 2] = [[one].into_iter().collect(), [other].into_iter().collect()];
        assert_eq!(are_equal(&lists[0], &lists[1]), wanted, "{one} and {other}");
    }
    // The sets of RFC 3779, appendix B, each written as the appendix has it and in another way.
    for (one, other, wanted) in [
        ("10.0.32.0/20, 10.0.64.0/24, 10.1.0.0/16", "10.1.0.0/17, 10.1.128.0/17, 10.0.64.0/24, 10.0.32.0/20", true),
        ("10.2.48.0/20, 10.2.64.0/24", "10.2.48.0-10.2.64.255", true),
        ("10.0.0.0/8, 10.3.0.0/16", "10.0.0.0/8", true),
        ("10.0.32.0/20", "10.0.32.0/21", false),
        ("10.0.32.0/20", "", false),
    ] {
        let sets = [one, other].map(|text| text.parse::<Ipv4Blocks>().unwrap());
        assert_eq!(are_equal(&sets[0], &sets[1]), wanted, "{one} and {other}");
    }
}

/// Sets of addresses are joined, cut and compared as the sets that their texts say.
#[test]
fn address_sets() {
    for (one, other, shared, joined, lacking) in [
        ("10.0.0.0/8", "10.1.0.0/16", "10.1.0.0/16", "10.0.0.0/8", "10.0.0.0/16, 10.2.0.0-10.255.255.255"),
        ("10.0.0.0/9", "10.128.0.0/9", "", "10.0.0.0/8", "10.0.0.0/9"),
        ("10.0.0.0/24", "10.0.0.128-10.0.1.127", "10.0.0.128/25", "10.0.0.0-10.0.1.127", "10.0.0.0/25"),
        ("", "10.0.0.0/8", "", "10.0.0.0/8", ""),
        (
            "0.0.0.0/0",
            "0.0.0.0/32, 255.255.255.255/32",
            "0.0.0.0/32, 255.255.255.255/32",
            "0.0.0.0/0",
            "0.0.0.1-255.255.255.254",
        ),
    ] {
        let set = |text: &str| text.parse::<Ipv4Blocks>().unwrap();
        let text = |blocks: IpBlocks| Ipv4Blocks::from(blocks).to_string();
        let (a, b) = (set(one), set(other));
        assert_eq!(text(a.intersection(&b)), shared, "{one} and {other}");
        assert_eq!(text(b.intersection(&a)), shared, "{other} and {one}");
        assert_eq!(text(a.union(&b)), joined, "{one} and {other}");
        assert_eq!(text(b.union(&a)), joined, "{other} and {one}");
        assert_eq!(text(a.difference(&b)), lacking, "{one} without {other}");
        assert_eq!(a.contains(&b), shared == other, "{other} in {one}");
        assert_eq!(b.contains(&a), shared == one, "{one} in {other}");
        assert!(b.iter().all(|block| a.contains_block(block)) == a.contains(&b), "{other} in {one}");
    }
}

/// How many numbers and blocks there are, whether there are any, and which are the first and the last.
#[test]
fn counts() {
    for (low, high, count) in
        [(0, 0, 1), (5, 5, 1), (3000, 3999, 1000), (1, u32::MAX, u32::MAX), (0, u32::MAX, u32::MAX)]
    {
        let block = AsBlock::from((Asn::from_u32(low), Asn::from_u32(high)));
        assert_eq!(block.asn_count(), count, "{block}");
        assert_eq!((block.min().into_u32(), block.max().into_u32()), (low, high));
    }
    assert_eq!(AsBlock::Id(Asn::from_u32(5001)).asn_count(), 1);
    assert_eq!((Asn::MIN.into_u32(), Asn::MAX.into_u32()), (0, 4_294_967_295));
    assert_eq!(Asn::from_u32(0x0001_0203).to_raw(), [0, 1, 2, 3]);
    // RFC 3779, appendix C: 135, 3000 to 3999, 5001.
    for (text, ends) in [
        ("AS135, AS3000-AS3999, AS5001", &[(135, 135), (3000, 3999), (5001, 5001)][..]),
        ("AS5001, AS4000-AS5000", &[(4000, 5001)]),
        ("", &[]),
    ] {
        let blocks: AsBlocks = text.parse().unwrap();
        let found = blocks.iter().map(|block| (block.min().into_u32(), block.max().into_u32()));
        assert_eq!(found.collect::<Vec<_>>(), ends, "{text}");
        assert_eq!(blocks.is_empty(), ends.is_empty(), "{text}");
    }
    assert!(AsBlocks::empty().is_empty() && !AsBlocks::all().is_empty());
    let reversed = AsBlock::from((Asn::from_u32(5), Asn::from_u32(4)));
    assert_eq!([reversed].into_iter().collect::<AsBlocks>().to_string(), "AS4-AS5");
    for (prefix, len, first, last) in [
        (Prefix::new(v4("10.0.32.1"), 20), 20, v4("10.0.32.0"), v4("10.0.47.255").to_max(32)),
        (Prefix::new(v4("10.0.64.0"), 24), 24, v4("10.0.64.0"), v4("10.0.64.255").to_max(32)),
        (Prefix::new(v4("10.0.0.1"), 32), 32, v4("10.0.0.1"), v4("10.0.0.1").to_max(32)),
        (Prefix::new(v6("2001:0:2::1"), 48), 48, v6("2001:0:2::"), v6("2001:0:2:ffff:ffff:ffff:ffff:ffff")),
        (Prefix::new(v6("::1"), 128), 128, v6("::1"), v6("::1")),
        (Prefix::new(v6("::1"), 127), 127, v6("::"), v6("::1")),
    ] {
        assert_eq!((prefix.addr_len(), prefix.addr(), prefix.range()), (len, first, (first, last)));
        let block = IpBlock::from(prefix);
        assert_eq!((block.min(), block.max()), (first, last));
    }
    let one = AddressRange::from_v6_str("2001:db8::1-2001:db8::1").unwrap();
    assert_eq!(one.min(), one.max());
    let range = AddressRange::from_v4_str("10.2.48.0-10.2.64.255").unwrap();
    assert_eq!((range.min(), range.max()), (v4("10.2.48.0"), v4("10.2.64.255").to_max(32)));
    for (text, count) in [("", 0), ("10.0.0.0/8", 1), ("10.0.0.0/9, 10.128.0.0/9", 1), ("10.0.0.0/9, 11.0.0.0/9", 2)] {
        let blocks: Ipv4Blocks = text.parse().unwrap();
        assert_eq!((blocks.iter().count(), blocks.is_empty()), (count, count == 0), "{text}");
    }
    assert!(IpBlocks::empty().is_empty() && !IpBlocks::all().is_empty());
    assert_eq!([AddressFamily::Ipv4, AddressFamily::Ipv6].map(|family| family.to_string()), ["IPv4", "IPv6"]);
}

/// What each method says of a choice: whether it is the issuer's, whether it is there, its blocks, and its text.
#[test]
fn choices() {
    let blocks: AsBlocks = "AS135, AS3000-AS3999".parse().unwrap();
    let all = [AsResources::missing(), AsResources::inherit(), AsResources::blocks(blocks.clone())];
    for (choice, is_inherited, is_present, found, text) in [
        (&all[0], false, false, Ok(AsBlocks::empty()), "none"),
        (&all[1], true, true, Err(InheritedResources), "inherit"),
        (&all[2], false, true, Ok(blocks.clone()), "AS135, AS3000-AS3999"),
    ] {
        assert_eq!((choice.is_inherited(), choice.is_present()), (is_inherited, is_present), "{text}");
        let inner = choice.as_choice();
        assert_eq!((inner.is_inherited(), inner.is_present()), (is_inherited, is_present), "{text}");
        assert_eq!((choice.to_blocks(), inner.to_blocks()), (found.clone(), found), "{text}");
        assert_eq!((choice.to_string(), inner.to_string()), (text.to_string(), text.to_string()));
        let counted = inner.clone().map_blocks(|blocks| blocks.iter().count());
        let wanted = [ResourcesChoice::Missing, ResourcesChoice::Inherit, ResourcesChoice::Blocks(2)];
        let place = all.iter().position(|other| other == choice).unwrap();
        assert_eq!(counted, wanted[place], "{text}");
        assert_eq!(all.iter().filter(|other| are_equal(*other, choice)).count(), 1, "{text}");
    }
    assert_eq!(AsResources::blocks(AsBlocks::empty()), AsResources::missing());
    assert_eq!(AsResources::missing().encode(), None);
    assert_eq!(IpResources::encode_families(&IpResources::missing(), &IpResources::missing()), Ok(None));
    assert_ne!(AsResources::blocks("AS135".parse().unwrap()), all[2]);

    let blocks: IpBlocks = "10.0.0.0/8".parse::<Ipv4Blocks>().unwrap().into();
    let all = [IpResources::missing(), IpResources::inherit(), IpResources::blocks(blocks.clone())];
    for (choice, is_inherited, is_present, found) in [
        (&all[0], false, false, Ok(IpBlocks::empty())),
        (&all[1], true, true, Err(InheritedResources)),
        (&all[2], false, true, Ok(blocks)),
    ] {
        assert_eq!((choice.is_inherited(), choice.is_present()), (is_inherited, is_present), "{choice:?}");
        assert_eq!((choice.to_blocks(), choice.as_choice().to_blocks()), (found.clone(), found), "{choice:?}");
        assert_eq!(all.iter().filter(|other| are_equal(*other, choice)).count(), 1, "{choice:?}");
    }
    assert_eq!(IpResources::blocks(IpBlocks::empty()), IpResources::missing());
    assert_eq!(InheritedResources.to_string(), "inherited resources");
}

/// Blocks and lists are serialized as their texts, and other texts are rejected.
#[cfg(feature = "serde")]
#[test]
fn serialized() {
    fn as_text<T>(text: &str, wanted: &str)
    where
        T: PartialEq + std::fmt::Debug + std::str::FromStr + serde::Serialize + serde::de::DeserializeOwned,
    {
        let value = text.parse::<T>().unwrap_or_else(|_| panic!("{text}"));
        let quoted = format!("{wanted:?}");
        assert_eq!(serde_json::to_string(&value).unwrap(), quoted);
        assert_eq!(serde_json::from_str::<T>(&quoted).unwrap(), value);
        assert_eq!(serde_json::from_str::<T>(&format!("{text:?}")).unwrap(), value);
        for other in ["\"-\"", "\"AS1,\"", "\"10.0.0.0/33\"", "5", "null", "[]"] {
            assert!(serde_json::from_str::<T>(other).is_err(), "{other}");
        }
    }
    as_text::<AsBlock>("1-5", "AS1-AS5");
    as_text::<AsBlocks>("AS4, AS1-AS3", "AS1-AS4");
    as_text::<AsBlocks>("", "");
    as_text::<Ipv4Blocks>("10.128.0.0/9,10.0.0.0/9", "10.0.0.0/8");
    as_text::<Ipv4Blocks>("10.2.48.0-10.2.64.255", "10.2.48.0-10.2.64.255");
    as_text::<Ipv6Blocks>("2001:db8:0:0::/32, ::1", "::1/128, 2001:db8::/32");
}

/// What no reader of the extension accepts is not written: addresses of IP version 6, and parts of an address, as those
/// of IP version 4.
#[test]
fn families_that_are_written_are_read_again() {
    let of = |block: IpBlock| IpResources::blocks([block].into_iter().collect());
    let v6 = of(IpBlock::from_v6_str("2001:db8::/32").unwrap());
    let range = of(IpBlock::from_v6_str("2001:dc0::-2001:dc0::5").unwrap());
    let part = of(IpBlock::from((Addr::from_bits(1), Addr::from_bits(5))));
    let below = of(IpBlock::from((v4("10.0.0.0"), v4("10.0.0.5"))));
    let within = of(IpBlock::from((Addr::from_bits(1), v4("10.0.0.5").to_max(32))));
    for wrong in [&range, &part, &below, &within] {
        assert_eq!(IpResources::encode_families(wrong, &IpResources::missing()), Err(OtherFamily));
        let octets = IpResources::encode_families(&IpResources::missing(), wrong).unwrap().unwrap();
        assert_eq!(IpResources::decode_families(&octets), Ok((None, Some(wrong.clone()))));
    }
    // The first 32 bits are those of a prefix of IP version 4 too.
    let octets = IpResources::encode_families(&v6, &range).unwrap().unwrap();
    assert_eq!(IpResources::decode_families(&octets), Ok((Some(v6), Some(range))));
    assert!(!OtherFamily.to_string().is_empty());
}

#[test]
fn numbers_have_no_sign() {
    for text in ["10.0.0.0/+8", "10.0.0.0/-8", "10.0.0.0/", "10.0.0.0/ 8", "10.0.0.0/33", "10.0.0.0/256"] {
        assert!(Prefix::from_v4_str(text).is_err() && IpBlock::from_v4_str(text).is_err(), "{text}");
        assert!(text.parse::<Ipv4Blocks>().is_err(), "{text}");
    }
    assert!(Prefix::from_v6_str("2001:db8::/+32").is_err());
    for text in ["AS+5", "+5", "AS-5", "AS", "AS1-AS+5", "AS+1-AS5"] {
        assert!(text.parse::<AsBlock>().is_err(), "{text}");
    }
}

#[test]
fn blocks_of_sets() {
    let numbers: AsBlocks = "AS1-AS4, AS7".parse().unwrap();
    for (block, is_in) in [("AS1-AS4", true), ("AS7", true), ("AS2", true), ("AS4-AS5", false), ("AS5", false)] {
        assert_eq!(numbers.contains_block(block.parse::<AsBlock>().unwrap()), is_in, "{block}");
        assert!(!AsBlocks::empty().contains_block(block.parse::<AsBlock>().unwrap()));
    }
    let addresses: IpBlocks = "2001:db8::/32, 2001:dc0::1-2001:dc0::5".parse::<Ipv6Blocks>().unwrap().into();
    assert_eq!(addresses.as_v6().to_string(), "2001:db8::/32, 2001:dc0::1-2001:dc0::5");
    let addresses: IpBlocks = "10.0.0.0/8, 11.0.0.1-11.0.0.5".parse::<Ipv4Blocks>().unwrap().into();
    assert_eq!(addresses.as_v4().to_string(), "10.0.0.0/8, 11.0.0.1-11.0.0.5");
}

/// A block of two addresses is a prefix where it is one.
#[test]
fn blocks_of_two_addresses() {
    for (low, high, length) in [
        ("2001:db8::", "2001:db8:ffff:ffff:ffff:ffff:ffff:ffff", Some(32)),
        ("2001:db8::1", "2001:db8::1", Some(128)),
        ("2001:db8::", "2001:db8::2", None),
        ("2001:db8::1", "2001:db8::2", None),
    ] {
        let block = IpBlock::from((v6(low), v6(high)));
        assert_eq!((block.min(), block.max()), (v6(low), v6(high)));
        let found = if let IpBlock::Prefix(prefix) = block { Some(prefix.addr_len()) } else { None };
        assert_eq!(found, length, "{low} {high}");
        let shown = length.map_or_else(|| format!("{low}-{high}"), |length| format!("{low}/{length}"));
        assert_eq!(block.display_v6().to_string(), shown);
    }
}

#[test]
fn sets_of_all_kinds() {
    let set = |asn: &str, v4: &str, v6: &str| {
        ResourceSet::new(asn.parse().unwrap(), v4.parse().unwrap(), v6.parse().unwrap())
    };
    let all = set("AS1-AS9", "10.0.0.0/8", "2001:db8::/32");
    let parts = [set("AS5", "", ""), set("", "10.1.0.0/16", ""), set("", "", "2001:db8:1::/48")];
    let others = [set("AS10", "", ""), set("", "11.0.0.0/8", ""), set("", "", "2001:db9::/32")];
    assert!(ResourceSet::empty().is_empty() && all.contains(&ResourceSet::empty()));
    assert!(ResourceSet::all().contains(&all) && !all.contains(&ResourceSet::all()));
    for (part, other) in parts.iter().zip(&others) {
        assert!(!part.is_empty() && all.contains(part) && !all.contains(other) && !part.contains(&all));
        let both = all.union(other);
        assert!(both.contains(&all) && both.contains(other));
        assert_eq!((both.difference(&all), both.intersection(other)), (other.clone(), other.clone()));
        assert_eq!((all.difference(other), all.intersection(other)), (all.clone(), ResourceSet::empty()));
        assert_eq!((all.intersection(part), all.union(part)), (part.clone(), all.clone()));
        assert_eq!(all.difference(part).union(part), all);
        assert!(!all.difference(part).contains(part));
    }
    assert!(all.contains_asn(Asn::from_u32(9)) && !all.contains_asn(Asn::from_u32(10)));
    assert_eq!((all.asn().to_string(), all.ipv4().to_string()), ("AS1-AS9".into(), "10.0.0.0/8".into()));
    assert_eq!(all.ipv6().to_string(), "2001:db8::/32");
    assert_eq!(all.to_string(), "asn: 'AS1-AS9', ipv4: '10.0.0.0/8', ipv6: '2001:db8::/32'");
}
