//! Phrases, version and largest sizes are those of include/zompelgors.h.
#![allow(clippy::cast_possible_truncation)] // small numbers, written out here
use std::{fs, path::Path};
use zompelgors::{
    version, Number, Refusal, ABSENT, CONTRACT, MOST_DARTS, MOST_HEIGHT, MOST_LEVELS,
    MOST_PARTNER_DARTS, MOST_RECORD, STAY, SUMS, WORDS,
};

fn header() -> String {
    let path = Path::new(env!("CARGO_MANIFEST_DIR")).join("../include/zompelgors.h");
    fs::read_to_string(path).expect("include/zompelgors.h")
}

/// The number that the header defines for a name.
fn defined(name: &str) -> usize {
    let header = header();
    let line = header
        .lines()
        .find_map(|l| l.strip_prefix(&format!("#define {name} ")));
    let word = line.and_then(|rest| rest.split(' ').next());
    word.and_then(|w| w.parse().ok())
        .unwrap_or_else(|| panic!("{name}"))
}

#[test]
fn phrases() {
    let header = header();
    let (_, table) = header.split_once("texts[] = {").unwrap();
    let (table, _) = table.split_once("};").unwrap();
    let texts: Vec<&str> = table.split('"').skip(1).step_by(2).collect();
    assert_eq!(texts.len(), 24);
    for (number, text) in texts.into_iter().enumerate() {
        let refusal = Refusal {
            number: number as u16,
            level: 1,
            involution: 2,
            dart: 3,
        };
        assert_eq!(refusal.text(), text);
        assert_eq!(
            refusal.to_string(),
            format!("refused {number} 1 2 3: {text}")
        );
    }
}

/// `NotTwice` for `ZG_E_NOT_TWICE`.
fn spelt(name: &str) -> String {
    let words = name.split('_').map(|word| {
        let (first, rest) = word.split_at(1);
        first.to_owned() + &rest.to_lowercase()
    });
    words.collect()
}

#[test]
fn names() {
    let header = header();
    let lines = header.lines().filter_map(|line| {
        let (name, rest) = line.trim().strip_prefix("ZG_E_")?.split_once(" = ")?;
        let digits = rest.split(|c: char| !c.is_ascii_digit()).next()?;
        Some((spelt(name), digits.parse::<u16>().ok()?))
    });
    let named: Vec<(String, u16)> = lines.collect();
    assert_eq!(named.len(), 23);
    for (name, number) in named {
        assert_eq!(format!("{:?}", Number::from(number)), name);
    }
}

#[test]
fn numbers_there_and_back() {
    for number in 0..=u16::MAX {
        assert_eq!(u16::from(Number::from(number)), number);
        assert_eq!(Number::from(number) == Number::Other(number), number > 23);
    }
    assert_eq!(Number::from(0), Number::Accepted);
    assert_eq!(Number::Other(24).text(), "no number of a refusal");
}

/// What `main` prints of a refusal that it returns.
#[test]
fn debug_is_the_line() {
    let refusal = Refusal {
        number: 9,
        level: 1,
        involution: 2,
        dart: 3,
    };
    assert_eq!(refusal.kind(), Number::NotWhole);
    assert_eq!(format!("{refusal:?}"), refusal.to_string());
    let wrapped: Result<(), Refusal> = Err(refusal);
    assert_eq!(
        format!("{wrapped:?}"),
        "Err(refused 9 1 2 3: a kernel is not made of whole cells)"
    );
}

#[cfg(feature = "std")]
#[test]
fn an_error_as_others() {
    let boxed: Box<dyn std::error::Error> = Box::from(Refusal {
        number: 3,
        level: 0,
        involution: 0,
        dart: 0,
    });
    assert_eq!(boxed.to_string(), "refused 3 0 0 0: the height is above 32");
}

#[test]
fn one_version() {
    let [major, minor, patch] =
        ["MAJOR", "MINOR", "PATCH"].map(|part| defined(&format!("ZG_VERSION_{part}")));
    assert_eq!(version() as usize, 65_536 * major + 256 * minor + patch);
    assert_eq!(
        env!("CARGO_PKG_VERSION"),
        format!("{major}.{minor}.{patch}")
    );
}

#[test]
fn sizes() {
    assert_eq!(defined("ZG_MOST_DARTS"), MOST_DARTS);
    assert_eq!(defined("ZG_MOST_PARTNER_DARTS"), MOST_PARTNER_DARTS);
    assert_eq!(defined("ZG_MOST_LEVELS"), MOST_LEVELS);
    assert_eq!(defined("ZG_MOST_HEIGHT"), MOST_HEIGHT);
    assert_eq!(defined("ZG_MOST_RECORD"), MOST_RECORD);
    assert_eq!(defined("ZG_WORDS"), WORDS);
    assert_eq!(defined("ZG_SUMS"), SUMS);
    assert_eq!(defined("ZG_CELLS"), 5 * SUMS);
    assert_eq!(defined("ZG_ABSENT"), usize::from(ABSENT));
    assert_eq!(defined("ZG_STAY"), usize::from(STAY));
    assert_eq!(defined("ZG_CONTRACT"), usize::from(CONTRACT));
}
