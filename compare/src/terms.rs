//! How many terms a script's assertions have, counted over its text (document 02, L1). Written from that text, not from the port.
//!
//! A constant is one, and so is an application, told by its opening bracket. A name is one where it stands for a term: not behind an
//! opening bracket, where it is the function that is applied, and not behind `select` or `store`, where it is the array. The brackets of
//! an indexed operator, with the numerals in them, and those of a store are none.

/// The pieces of an assertion that matter here.
#[derive(PartialEq)]
enum Token<'a> {
    Open,
    Name,
    Constant,
    Word(&'a [u8]),
}

/// What begins at the front of `s`, and how long it is; None: a blank or a closing bracket.
fn token(s: &[u8]) -> (Option<Token<'_>>, usize) {
    let until = |stop: fn(&u8) -> bool| s.iter().position(stop).unwrap_or(s.len());
    match s[0] {
        b'(' => (Some(Token::Open), 1),
        b')' | b' ' => (None, 1),
        b'|' => (Some(Token::Name), 2 + s[1..].iter().position(|b| *b == b'|').expect("a name ends")),
        b'#' => (Some(Token::Constant), until(|b| matches!(b, b')' | b' '))),
        _ => {
            let n = until(|b| matches!(b, b'(' | b')' | b' '));
            (Some(Token::Word(&s[..n])), n)
        }
    }
}

fn of_term(mut s: &[u8]) -> u64 {
    let mut terms = 0;
    let mut before = None;
    while !s.is_empty() {
        let (found, n) = token(s);
        s = &s[n..];
        let Some(t) = found else { continue };
        match t {
            Token::Open => terms += 1,
            Token::Constant => terms += 1,
            Token::Name if before == Some(Token::Open) => {}
            Token::Name if before == Some(Token::Word(b"select")) || before == Some(Token::Word(b"store")) => {}
            Token::Name => terms += 1,
            // its bracket was counted
            Token::Word(b"_") | Token::Word(b"store") => terms -= 1,
            Token::Word(_) => {}
        }
        before = Some(t);
    }
    terms
}

/// The terms of all assertions.
pub fn of_script(script: &[u8]) -> u64 {
    let assertion = |line: &&[u8]| line.starts_with(b"(assert ");
    script.split(|b| *b == b'\n').filter(assertion).map(|line| of_term(&line[b"(assert ".len()..line.len() - 1])).sum()
}
