//! The constants here and those of the C header are the same.

use smt_echo::*;
use std::collections::BTreeMap;

const HEADER: &str = include_str!("../../../include/echo.h");

/// The lines `ECHO_NAME = number` of the header.
fn header() -> BTreeMap<&'static str, u64> {
    let mut found = BTreeMap::new();
    for line in HEADER.lines() {
        let Some((name, rest)) = line.trim().split_once(" = ") else { continue };
        if !name.starts_with("ECHO_") {
            continue;
        }
        let number: String = rest.chars().take_while(char::is_ascii_digit).collect();
        assert!(found.insert(name, number.parse().unwrap()).is_none(), "{name} twice");
    }
    found
}

/// Every function that takes a problem has one over `struct echo_problem`, and the test in C calls both.
#[test]
fn functions_over_the_struct() {
    const TEST: &str = include_str!("../../../examples/c/entry_points.c");
    let takes_a_problem = |part: &'static str| part.split_once("(\n    const uint8_t *nodes, ")?.0.split(' ').nth(1);
    let plain: Vec<&str> = HEADER.split("\nstruct ").filter_map(takes_a_problem).collect();
    assert_eq!(plain.len(), 8);
    for name in plain {
        let call =
            HEADER.find(&format!("    return {name}(")).unwrap_or_else(|| panic!("{name} has no function over the struct"));
        let over = HEADER[..call].rsplit("static inline struct ").next().and_then(|text| text.split(['(', ' ']).nth(1)).unwrap();
        assert!(over.starts_with("echo_problem_"), "{over}");
        for called in [name, over] {
            assert!(TEST.contains(&format!(" {called}(")), "{called}");
        }
    }
}

/// The stack of a reading is told by the same numbers.
#[test]
fn stack_of_a_reading() {
    let (base, byte) = (read_stack(0), read_stack(1) - read_stack(0));
    assert!(HEADER.contains(&format!("    return {base} + {byte} * script_len;\n")));
    let (base, byte) = (release_stack(0), release_stack(1) - release_stack(0));
    assert!(HEADER.contains(&format!("    return {base} + {byte} * longest;\n")));
}

/// The stack of the calls that take a problem is told alike in the header and in README.md.
#[test]
fn stack_of_a_problem() {
    const README: &str = include_str!("../../../README.md");
    let told = |text: &'static str| {
        let words: Vec<&str> = text.split_whitespace().filter(|word| *word != "*").collect();
        let figures: Vec<&str> = words.windows(2).filter(|two| two[1].starts_with("KB")).map(|two| two[0]).collect();
        figures
    };
    let (there, figures) = (told(README), told(HEADER));
    assert_eq!(figures, ["243", "357", "309"]);
    for figure in figures {
        assert!(there.contains(&figure), "{figure}: {there:?}");
    }
}

#[test]
fn limits_numbers_and_kinds() {
    let mut here: BTreeMap<String, u64> = BTreeMap::new();
    for (name, value) in [
        ("ECHO_NODE_BYTES", NODE_BYTES),
        ("ECHO_MAX_NODES", MAX_NODES),
        ("ECHO_MAX_NODES_LEN", MAX_NODES_LEN),
        ("ECHO_MAX_BITS_LEN", MAX_BITS_LEN),
        ("ECHO_MAX_SIDE_LEN", MAX_SIDE_LEN),
        ("ECHO_MAX_ROOTS_LEN", MAX_ROOTS_LEN),
        ("ECHO_MAX_COLUMN_LEN", MAX_COLUMN_LEN),
        ("ECHO_MAX_ARENA_LEN", MAX_ARENA_LEN),
        ("ECHO_MAX_ARRAY_WIDTH", MAX_ARRAY_WIDTH as usize),
        ("ECHO_MAX_TRACE_ROOTS", MAX_TRACE_ROOTS),
        ("ECHO_MAX_SCRIPT_DEPTH", MAX_SCRIPT_DEPTH),
        ("ECHO_MAX_SCRIPTS", MAX_SCRIPTS),
        ("ECHO_ACCEPTED", 0),
    ] {
        here.insert(name.into(), value as u64);
    }
    here.insert("ECHO_SHORT_RECORD".into(), RecordRefusal::ShortRecord.number());
    here.insert("ECHO_NO_SCRIPT".into(), ReadRefusal::NoScript.number());
    here.insert("ECHO_TWO_MEANINGS".into(), ReleaseRefusal::TwoMeanings { script: 0 }.number());
    for refusal in Refusal::ALL {
        // Words of a name are parted by a low line there.
        let name = format!("{refusal:?}").replace("ArrayWidth", "Array_Width");
        here.insert(format!("ECHO_{name}").to_uppercase(), refusal.number());
    }
    for refusal in [TraceRefusal::Wide, TraceRefusal::Values] {
        here.insert(format!("ECHO_{refusal:?}").to_uppercase(), refusal.number());
    }
    macro_rules! kinds {
        ($($name:ident)*) => { $(here.insert(concat!("ECHO_KIND_", stringify!($name)).into(), kind::$name.into());)* };
    }
    kinds!(VAR CONST ADD SUB MUL UDIV UREM AND OR XOR SHL LSHR ASHR ROTR EXTRACT CONCAT ZERO_EXT SIGN_EXT ITE EQ NE ULT ULE UGT UGE
           SLT SLE SGT SGE NOT BOOL_AND BOOL_OR BV_NOT NEG ROTL SDIV SREM SELECT CALL);

    let there: BTreeMap<String, u64> = header().into_iter().map(|(name, value)| (name.to_string(), value)).collect();
    assert_eq!(here, there);
    assert_eq!(here.len(), 12 + 18 + 39);
}
