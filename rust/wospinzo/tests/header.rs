//! The crate's numbers are those of the C header, and each is its own code.

use std::collections::HashMap;
use std::fs;
use std::path::Path;

use wospinzo::{Event, Move, Node, Phase, Refusal, Watcher};

/// The constants of the header, enumerators and plain macros.
fn header() -> HashMap<String, u32> {
    let path = Path::new(env!("CARGO_MANIFEST_DIR")).join("../../include/wospinzo.h");
    let text = fs::read_to_string(path).unwrap();
    let mut constants = HashMap::new();
    for line in text.lines() {
        let line = line
            .trim()
            .trim_start_matches("#define ")
            .replace([',', '='], " ");
        let mut words = line.split_whitespace();
        if let (Some(name), Some(Ok(value))) = (words.next(), words.next().map(str::parse)) {
            if let Some(name) = name.strip_prefix("WOSPINZO_") {
                constants.insert(name.to_string(), value);
            }
        }
    }
    constants
}

/// `EnterSharedCall` as `ENTER_SHARED_CALL`.
fn upper(name: &str) -> String {
    let mut upper = String::new();
    for letter in name.chars() {
        if letter.is_uppercase() && !upper.is_empty() {
            upper.push('_');
        }
        upper.extend(letter.to_uppercase());
    }
    upper
}

#[test]
fn codes_are_those_of_the_header() {
    let header = header();
    let mut named = 0;
    let mut same = |name: String, value: u32| {
        assert_eq!(header.get(&name), Some(&value), "{name}");
        named += 1;
    };
    for event in Event::ALL {
        same(upper(&format!("{event:?}")), event as u32);
        assert_eq!(Event::from_code(event as u8), Some(event));
    }
    for node in Node::ALL {
        same(upper(&format!("{node:?}")), node as u32);
        assert_eq!(Node::from_code(node as u8), Some(node));
    }
    for phase in Phase::ALL {
        same(
            format!("PHASE_{}", upper(&format!("{phase:?}"))),
            phase as u32,
        );
        assert_eq!(Phase::from_number(phase as u8), Some(phase));
    }
    for refusal in Refusal::ALL {
        same(upper(&format!("{refusal:?}")), refusal as u32);
        assert_eq!(Refusal::from_number(refusal as u8), Some(refusal));
    }
    for number in 0..=6 {
        let mov = Move::from_numbers(number, 0).unwrap();
        let name = format!("{mov:?}").replace("(0)", "");
        same(upper(&name), u32::from(number));
        assert_eq!(mov.numbers(), (number, 0));
    }
    same("VERSION_MAJOR".into(), wospinzo::VERSION >> 16);
    same("VERSION_MINOR".into(), wospinzo::VERSION >> 8 & 255);
    same("VERSION_PATCH".into(), wospinzo::VERSION & 255);
    same("MAX_THREADS".into(), wospinzo::MAX_THREADS.into());
    same("MAX_TABLE_SIZE".into(), wospinzo::MAX_TABLE_SIZE as u32);
    same("WATCHER_SIZE".into(), size_of::<Watcher>() as u32);
    same("NO_TARGET".into(), wospinzo::NO_TARGET.into());
    same("MAX_HISTORY".into(), wospinzo::MAX_HISTORY as u32);
    same("MAX_SCRIPT".into(), wospinzo::MAX_SCRIPT as u32);
    same("MAX_PLAN_MOVES".into(), wospinzo::MAX_PLAN_MOVES as u32);
    same("MAX_PLAN_SIZE".into(), wospinzo::MAX_PLAN_SIZE as u32);
    same("RUN_ROOM".into(), wospinzo::RUN_ROOM as u32);
    same("READ_ROOM".into(), wospinzo::READ_ROOM as u32);
    same("STACK".into(), wospinzo::STACK as u32);
    same("RUN_STACK".into(), wospinzo::RUN_STACK as u32);
    same("READ_STACK".into(), wospinzo::READ_STACK as u32);
    same("QUIET".into(), 0);
    same("ACCEPTED".into(), 0);
    assert_eq!(named, header.len(), "the header has other constants");
}

#[test]
fn other_numbers_are_no_codes() {
    assert_eq!(Event::from_code(0), None);
    assert_eq!(Event::from_code(9), None);
    assert_eq!(Node::from_code(11), None);
    assert_eq!(Phase::from_number(19), None);
    assert_eq!(Refusal::from_number(0), None);
    assert_eq!(Refusal::from_number(14), None);
    assert_eq!(Move::from_numbers(7, 0), None);
    assert_eq!(Move::from_numbers(0, 1), None);
    assert_eq!(Move::from_numbers(6, 1), None);
    assert_eq!(Move::from_numbers(3, 7), Some(Move::Set(7)));
}
