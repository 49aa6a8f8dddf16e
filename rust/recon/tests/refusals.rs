//! The kinds of refusals: those of the header, each with its number and a text, and numbers that no kind has.
use recon::Refusal;
use std::collections::HashSet;

const HEADER: &str = include_str!("../../../include/recon.h");

/// The name that the header has for a kind: NoRoom is RECON_NO_ROOM.
fn header_name(kind: Refusal) -> String {
    let mut name = String::from("RECON");
    for letter in format!("{kind:?}").chars() {
        if letter.is_uppercase() {
            name.push('_');
        }
        name.extend(letter.to_uppercase());
    }
    name
}

/// The rows `REFUSAL(NAME, NUMBER, "TEXT")` of the header: name, number and text.
fn header_rows() -> Vec<(String, u64, String)> {
    let rows = HEADER.lines().filter_map(|line| line.trim().strip_prefix("REFUSAL("));
    rows.map(|row| {
        let parts: Vec<&str> = row.splitn(3, ", ").collect();
        let text = parts[2].split('"').nth(1).expect("a text in quotes");
        (
            parts[0].to_string(),
            parts[1].parse().expect("a number"),
            text.to_string(),
        )
    })
    .collect()
}

#[test]
fn the_kinds_are_those_of_the_header() {
    let kinds = Refusal::ALL
        .iter()
        .map(|kind| (header_name(*kind), kind.number(), kind.to_string()));
    let rows = header_rows().into_iter();
    assert!(kinds.eq(rows.map(|(name, number, text)| (name, number, format!("refused ({number}): {text}")))));
    assert!(Refusal::ALL
        .iter()
        .map(|kind| kind.number())
        .eq(1..=Refusal::ALL.len() as u64));
}

#[test]
fn each_kind_is_had_from_its_number() {
    for &kind in Refusal::ALL {
        assert_eq!(Refusal::from_number(kind.number()), Some(kind));
    }
    assert_eq!(Refusal::from_number(0), None);
}

#[test]
fn each_kind_has_its_text() {
    let texts: HashSet<String> = Refusal::ALL.iter().map(Refusal::to_string).collect();
    assert_eq!(texts.len(), Refusal::ALL.len());
    assert_eq!(
        Refusal::NoRoom.to_string(),
        "refused (12): the out buffer is too small for the message"
    );
}

#[test]
fn other_numbers_are_kept() {
    for number in [Refusal::ALL.len() as u64 + 1, 255, 256, 257, u64::MAX] {
        let refusal = Refusal::from_number(number).unwrap();
        assert_eq!(refusal, Refusal::Unknown(number));
        assert_eq!(refusal.number(), number);
        assert!(refusal.to_string().starts_with(&format!("refused ({number}): ")));
    }
}

#[cfg(feature = "std")]
#[test]
fn a_refusal_is_an_error() {
    let error: Box<dyn std::error::Error> = Box::new(Refusal::SessionDone);
    assert_eq!(error.to_string(), "refused (5): the session is done");
}
