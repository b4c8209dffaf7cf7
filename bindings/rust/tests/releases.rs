//! Releases: each kind of difference, the order of what is told, and which script is named.

mod common;

use common::{M1_SCRIPT, M2_SCRIPT};
use smt_echo::*;
use std::collections::HashSet;

/// A script of these declarations, with the logic that they need.
fn script(lines: &[String]) -> String {
    let any = |what: &str| lines.iter().any(|line| line.contains(what));
    let logic = match (any("(declare-fun "), any("(Array ")) {
        (true, _) => "QF_AUFBV",
        (false, true) => "QF_ABV",
        (false, false) => "QF_BV",
    };
    let lines: String = lines.iter().map(|line| format!("{line}\n")).collect();
    format!("(set-logic {logic})\n{lines}(check-sat)\n")
}

fn variable(name: &str, width: u64) -> String {
    format!("(declare-const |{name}| (_ BitVec {width}))")
}

fn array(name: &str, index: u64, value: u64) -> String {
    format!("(declare-const |{name}| (Array (_ BitVec {index}) (_ BitVec {value})))")
}

fn function(name: &str, arguments: &[u64], width: u64) -> String {
    let arguments: Vec<String> = arguments.iter().map(|width| format!("(_ BitVec {width})")).collect();
    format!("(declare-fun |{name}| ({}) (_ BitVec {width}))", arguments.join(" "))
}

fn one(line: String) -> String {
    script(&[line])
}

fn check(scripts: &[impl AsRef<str>]) -> Result<(), ReleaseRefusal> {
    let file: String = scripts.iter().map(AsRef::as_ref).collect();
    check_release(file.as_bytes())
}

const fn limit(script: usize) -> Result<(), ReleaseRefusal> {
    Err(ReleaseRefusal::Limit { script })
}

const fn no_script(script: usize) -> Result<(), ReleaseRefusal> {
    Err(ReleaseRefusal::NoScript { script })
}

const fn two_meanings(script: usize) -> Result<(), ReleaseRefusal> {
    Err(ReleaseRefusal::TwoMeanings { script })
}

/// A name as each of thirteen, no two of which are the same.
fn meanings(name: &str) -> Vec<String> {
    vec![
        variable(name, 16),
        variable(name, 17),
        array(name, 16, 8),
        array(name, 8, 16),
        array(name, 16, 9),
        function(name, &[], 16),
        function(name, &[], 17),
        function(name, &[8, 9], 16),
        function(name, &[9, 8], 16),
        function(name, &[8, 9], 17),
        function(name, &[8], 16),
        function(name, &[8, 9, 8], 16),
        function(name, &[8, 8], 16),
    ]
}

#[test]
fn accepted() {
    assert_eq!(check_release(b""), Ok(()));
    assert_eq!(check(&[M1_SCRIPT]), Ok(()));
    assert_eq!(check(&[M1_SCRIPT, M2_SCRIPT, M1_SCRIPT, M2_SCRIPT]), Ok(()));
    // other names, at other places of their tables, beside other assertions
    let (x, y, m) = (variable("x", 8), variable("y", 9), array("m", 8, 9));
    let all = [script(&[x.clone(), y.clone(), m.clone()]), script(&[y.clone(), x, m]), M2_SCRIPT.to_string(), script(&[y])];
    assert_eq!(check(&all), Ok(()));
}

#[test]
fn every_two_meanings() {
    for name in ["idx", "\u{9818}\u{57df}", "(check-sat)", "a name of more than sixteen bytes"] {
        for (i, a) in meanings(name).into_iter().enumerate() {
            for (j, b) in meanings(name).into_iter().enumerate() {
                let told = if i == j { Ok(()) } else { two_meanings(2) };
                assert_eq!(check(&[one(a.clone()), M1_SCRIPT.into(), one(b.clone())]), told, "{a} {b}");
            }
        }
    }
}

#[test]
fn the_earliest_that_disagrees() {
    let x = |width: u64| one(variable("x", width));
    let y = |width: u64| one(variable("y", width));
    assert_eq!(check(&[x(8), x(9), x(8)]), two_meanings(1));
    assert_eq!(check(&[x(8), y(9), x(8), y(9), x(9)]), two_meanings(4));
    assert_eq!(check(&[x(8), y(8), y(9), x(9)]), two_meanings(2));
    assert_eq!(check(&[y(8), x(8), x(9), y(9)]), two_meanings(2));
    for distance in 1..MAX_SCRIPTS {
        let mut all = vec![M1_SCRIPT.to_string(); MAX_SCRIPTS];
        all[MAX_SCRIPTS - 1 - distance] = x(8);
        all[MAX_SCRIPTS - 1] = x(9);
        assert_eq!(check(&all), two_meanings(MAX_SCRIPTS - 1), "{distance}");
    }
}

/// Names are the same if all their bytes are, whichever these are.
#[test]
fn names() {
    for (a, b) in [("x", "X"), ("x", "x "), ("ab", "ba"), ("\u{fc}", "u\u{308}"), ("x", "xx"), ("Aa", "BB")] {
        assert_eq!(check(&[one(variable(a, 1)), one(variable(b, 2))]), Ok(()), "{a} {b}");
        assert_eq!(check(&[one(variable(a, 1)), one(variable(b, 2)), one(variable(b, 1))]), two_meanings(2), "{a} {b}");
    }
    let named = |byte: u8, width: char| {
        let mut script = one(variable("?", 1)).into_bytes();
        let at = script.iter().position(|b| *b == b'?').unwrap();
        script[at] = byte;
        let at = script.iter().position(|b| *b == b'1').unwrap();
        script[at] = width as u8;
        script
    };
    for byte in 128..=255 {
        assert_eq!(check_release(&[named(byte, '1'), named(byte, '1')].concat()), Ok(()));
        assert_eq!(check_release(&[named(byte, '1'), named(byte, '2')].concat()), two_meanings(1));
        assert_eq!(check_release(&[named(byte, '1'), named(byte ^ 1, '2')].concat()), Ok(()));
    }
}

/// Reading comes before meanings, and the number of lines before reading.
#[test]
fn order() {
    let (x8, x9) = (one(variable("x", 8)), one(variable("x", 9)));
    let unread = M2_SCRIPT.replace("(= ", "(=  ");
    let wide = one(variable("w", 1 << 40));
    assert_eq!(check(&[&x8, &x9, &unread]), no_script(2));
    assert_eq!(check(&[&x8, &unread, &x9]), no_script(1));
    assert_eq!(check(&[&x8, &x9, &wide, &unread]), limit(2));
    assert_eq!(check(&[&x8, &x9, &unread, &wide]), no_script(2));
    // bytes after the last check-sat line are one more script
    for more in ["\n", " ", "(check-sat)", "(set-logic QF_BV)\n", "\0"] {
        assert_eq!(check(&[more]), no_script(0), "{more:?}");
        assert_eq!(check(&[&x8, &x9, more]), no_script(2), "{more:?}");
        assert_eq!(check(&[&x8, &wide, more]), limit(1), "{more:?}");
    }
    for count in [1, 2, 63, 64, 65, 66, 200] {
        let many = count > MAX_SCRIPTS;
        let told = |few: Result<(), ReleaseRefusal>| if many { limit(64) } else { few };
        let mut all = vec![x8.clone(); count];
        assert_eq!(check(&all), told(Ok(())), "{count}");
        all.push("(check-sat)".into());
        assert_eq!(check(&all), told(no_script(count)), "{count}");
        all.pop();
        all[count - 1] = x9.clone();
        assert_eq!(check(&all), told(if count == 1 { Ok(()) } else { two_meanings(count - 1) }), "{count}");
        all[count - 1] = wide.clone();
        assert_eq!(check(&all), told(limit(count - 1)), "{count}");
        all[0] = unread.clone();
        assert_eq!(check(&all), told(no_script(0)), "{count}");
    }
    assert_eq!(check(&["(check-sat)\n"; 65]), limit(64));
    assert_eq!(check(&["(check-sat)\n"; 64]), no_script(0));
}

/// What the other printers write: a script with `let` is none, a hidden one is read as any.
#[test]
fn other_printers() {
    let text = b"problem\nvariable |x| 8 node 0\n0 var 8\n1 const 5 8\n2 add 0 1\n3 eq 2 2\nroot 3\n";
    let problem = OwnedProblem::from_text(text).unwrap();
    let mut out = [0; 300];
    let length = echo_let(&problem.lend(), &mut out).unwrap();
    let with_let = String::from_utf8(out[..length].to_vec()).unwrap();
    assert_eq!(check(&[M2_SCRIPT, &with_let]), no_script(1));
    let hidden = M2_SCRIPT.replace("101", "000");
    assert_eq!(check(&[M2_SCRIPT, &hidden]), Ok(()));
    assert_eq!(check(&[&one(variable("x", 9)), &hidden]), two_meanings(1));
}

/// A file cut at every place: it is accepted where a script ends, and else its last part is none.
#[test]
fn cut_short() {
    let parts = [M2_SCRIPT, M1_SCRIPT, M2_SCRIPT];
    let file = parts.concat();
    let ends: Vec<usize> = (0..=3).map(|count| parts[..count].concat().len()).collect();
    for end in 0..=file.len() {
        let whole = ends.iter().filter(|e| **e <= end).count() - 1;
        let told = if ends.contains(&end) { Ok(()) } else { no_script(whole) };
        assert_eq!(check_release(&file.as_bytes()[..end]), told, "{end}");
    }
}

/// As many names as a release can have, no two of them the same, and then one that is there with another width.
#[test]
fn many_names() {
    let full = |script: usize, last: u64| {
        let name = |i: usize| format!("n{script}.{i}");
        let variables = (0..512).map(|i| variable(&name(i), 3));
        let arrays = (512..1_024).map(|i| array(&name(i), 3, 4));
        let functions = (1_024..1_535).map(|i| function(&name(i), &[], 5));
        let last = [function(if last == 0 { "n0.1535" } else { "n7.1534" }, &[], last + 5)];
        self::script(&variables.chain(arrays).chain(functions).chain(last).collect::<Vec<_>>())
    };
    let mut all: Vec<String> = (0..MAX_SCRIPTS).map(|script| full(script, 0)).collect();
    let declared: HashSet<&str> = all.iter().flat_map(|script| script.split('|').skip(1).step_by(2)).collect();
    assert_eq!(declared.len(), MAX_SCRIPTS * 1_535 + 1);
    assert_eq!(check(&all), Ok(()));
    all[63] = full(63, 1);
    assert_eq!(check(&all), two_meanings(63));
    all[7] = full(7, 1);
    assert_eq!(check(&all), no_script(7), "a name twice in one script");
}

#[test]
fn depth() {
    assert_eq!(release_depth(b""), 0);
    assert_eq!(release_depth([M1_SCRIPT, M2_SCRIPT, "((((("].concat().as_bytes()), 3);
    // a bar that is left open does not reach into the next script
    assert_eq!(release_depth(b"|((\n(check-sat)\n((a))\n(check-sat)\n"), 2);
}

#[test]
fn numbers_and_texts() {
    let mut texts = HashSet::new();
    for (refusal, number, script) in [
        (ReleaseRefusal::Limit { script: 64 }, 9, 64),
        (ReleaseRefusal::Limit { script: 5 }, 9, 5),
        (ReleaseRefusal::NoScript { script: 64 }, 13, 64),
        (ReleaseRefusal::TwoMeanings { script: 7 }, 17, 7),
    ] {
        assert_eq!((refusal.number(), refusal.script()), (number, script));
        let text = refusal.to_string();
        let name = format!("{refusal:?}");
        assert!(text.starts_with(&format!("{number} {}: ", name.split(' ').next().unwrap())), "{text}");
        assert!(!text.contains('\n') && !text.contains("  ") && text.contains(&script.to_string()), "{text}");
        assert!(texts.insert(text));
    }
    fn checked(file: &[u8]) -> Result<(), Box<dyn std::error::Error + Send + Sync>> {
        Ok(check_release(file)?)
    }
    assert_eq!(checked(b"?").unwrap_err().downcast_ref(), Some(&ReleaseRefusal::NoScript { script: 0 }));
}
