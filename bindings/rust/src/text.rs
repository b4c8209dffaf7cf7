//! The text form of a problem: one thing a line, for people to write, mail and compare. docs/COMMAND.md has the grammar.
//!
//! What [`Problem::to_text`] writes is read back as the same eighteen slices, whatever they hold. Where the slices are laid out as the reader
//! lays them out, a constant has its bits beside it, a select or call its side entries, a declaration its name; where not, the line says the
//! place, and the inputs themselves follow as lists of numbers.

use crate::owned::{INPUTS, InputMut};
use crate::{Input, NODE_BYTES, OwnedProblem, Problem, kind, node};
use std::error::Error;
use std::fmt;
use std::io::Write;
use std::str::FromStr;

/// The first line.
pub const TEXT_HEAD: &str = "problem";

/// The mark that some programs put in front of UTF-8. It is passed over.
pub const TEXT_MARK: &[u8] = b"\xef\xbb\xbf";

/// Why bytes are no problem in the text form.
#[derive(Clone, Debug, PartialEq, Eq, Hash)]
pub struct TextError {
    /// The line, from 1.
    pub line: usize,
    /// The byte in the line, from 1.
    pub column: usize,
    /// What is wrong there.
    pub message: String,
}

impl fmt::Display for TextError {
    fn fmt(&self, f: &mut fmt::Formatter<'_>) -> fmt::Result {
        write!(f, "line {}, column {}: {}", self.line, self.column, self.message)
    }
}

impl Error for TextError {}

// ---------------------------------------------------------------- reading

impl OwnedProblem {
    /// Reads the text form. Whether the problem is one that can be printed is not looked at.
    pub fn from_text(text: &[u8]) -> Result<OwnedProblem, TextError> {
        let mut problem = OwnedProblem::default();
        let text = text.strip_prefix(TEXT_MARK).unwrap_or(text);
        for (i, bytes) in text.split(|b| *b == b'\n').enumerate() {
            let mut line = Line { bytes: bytes.strip_suffix(b"\r").unwrap_or(bytes), at: 0, start: 0, number: i + 1 };
            if i == 0 {
                let head = line.word("the first line, `problem`,")?;
                if head != TEXT_HEAD.as_bytes() {
                    return Err(line.wanted("the first line, `problem`,", head));
                }
            } else if let Some(token) = line.next()? {
                problem.item(token, &mut line)?;
            }
            line.end()?;
        }
        Ok(problem)
    }

    /// One thing: what begins with this token.
    fn item(&mut self, first: Token<'_>, line: &mut Line<'_>) -> Result<(), TextError> {
        let word = match first {
            Token::Word(word) => word,
            Token::Name(_) => return Err(line.error("a line begins with a word or a node's number, and not with a name".into())),
        };
        match word {
            b"variable" => {
                push_name(line.name()?, &mut self.names, &mut self.name_start, &mut self.name_len);
                self.var_width.push(line.number("the width")?);
                match line.word("`node`")? {
                    b"node" => self.var_node.push(line.number("the number of a node")?),
                    other => return Err(line.wanted("`node`", other)),
                }
            }
            b"array" => {
                push_name(line.name()?, &mut self.anames, &mut self.aname_start, &mut self.aname_len);
                self.index_width.push(line.number("the width of the index")?);
                self.value_width.push(line.number("the width of the value")?);
            }
            b"function" => {
                push_name(line.name()?, &mut self.fnames, &mut self.fname_start, &mut self.fname_len);
                self.func_width.push(line.number("the width")?);
            }
            b"root" => self.roots.push(line.number("the number of a node")?),
            _ if word[0].is_ascii_digit() => self.node(word, line)?,
            _ => match INPUTS.iter().position(|input| input.as_bytes() == word) {
                Some(input) => match &mut self.inputs_mut()[input] {
                    InputMut::Bytes(bytes) => line.numbers(bytes)?,
                    InputMut::Numbers(numbers) => line.numbers(numbers)?,
                },
                None => return Err(line.wanted("a declaration, a node, a root or the name of an input", word)),
            },
        }
        Ok(())
    }

    fn node(&mut self, number: &[u8], line: &mut Line<'_>) -> Result<(), TextError> {
        let due = self.nodes.len() / NODE_BYTES;
        if !self.nodes.len().is_multiple_of(NODE_BYTES) {
            return Err(line.error("the bytes of `nodes` before this line end inside a record".into()));
        }
        if line.parse::<usize>("the number of a node", number)? != due {
            return Err(line.error(format!("this is node {due}: nodes stand in order, from 0 on")));
        }
        let word = line.word("a kind")?;
        let record = match word {
            b"const" => self.constant(line)?,
            b"select" => {
                let [array, index] = [line.number("the number of an array")?, line.number("the node of the index")?];
                self.with_side(kind::SELECT, [array, index], "a select has pairs of an index and a value", 2, line)?
            }
            b"call" => {
                let [function, width] = [line.number("the number of a function")?, line.number("the width")?];
                self.with_side(kind::CALL, [function, width], "", 1, line)?
            }
            b"record" => {
                let kind = line.number("the number of a kind")?;
                node(kind, line.operands(4, |_| "a number")?)
            }
            _ => {
                let kind =
                    (0..kind::COUNT).find(|k| kind_word(*k).as_bytes() == word).ok_or_else(|| line.wanted("a kind", word))?;
                node(kind, line.operands(kind::operand_count(kind).unwrap_or(4), |place| operand(kind, place))?)
            }
        };
        self.nodes.extend(record);
        Ok(())
    }

    /// A constant: its bits; its value and width; or the place of its bits and its width.
    fn constant(&mut self, line: &mut Line<'_>) -> Result<[u8; NODE_BYTES], TextError> {
        let word = line.word("`#b` and digits, a decimal value, or `@` and a place,")?;
        if let Some(place) = word.strip_prefix(b"@") {
            let place = line.parse("a place in bits", place)?;
            return Ok(node(kind::CONST, [place, line.number("the width")?, 0, 0]));
        }
        let place = line.fits("the place of the constant's bits", self.bits.len())?;
        if let Some(digits) = word.strip_prefix(b"#b") {
            if digits.is_empty() || digits.iter().any(|d| !matches!(d, b'0' | b'1')) {
                return Err(line.wanted("`#b` and digits 0 and 1", word));
            }
            self.bits.extend(digits.iter().rev().map(|d| d - b'0'));
            return Ok(node(kind::CONST, [place, line.fits("the width", digits.len())?, 0, 0]));
        }
        let value: u128 = line.parse("`#b` and digits, a decimal value below 2^128, or `@` and a place,", word)?;
        let (start, width): (usize, u32) = (line.start, line.number("the width")?);
        if value.checked_shr(width).unwrap_or(0) != 0 {
            line.start = start;
            return Err(line.error(format!("{value} does not fit {width} bits")));
        }
        if width as usize > WIDEST_VALUE {
            return Err(line.error(format!("a constant given by its value has at most {WIDEST_VALUE} bits")));
        }
        self.bits.extend((0..width).map(|i| (value.checked_shr(i).unwrap_or(0) & 1) as u8));
        Ok(node(kind::CONST, [place, width, 0, 0]))
    }

    /// A select or call behind its two operands: its side entries, or where they start and how many (pairs) there are.
    fn with_side(
        &mut self,
        kind: u8,
        [a, b]: [u32; 2],
        uneven: &str,
        size: usize,
        line: &mut Line<'_>,
    ) -> Result<[u8; NODE_BYTES], TextError> {
        let start = line.fits("the place of the side entries", self.side.len())?;
        let (start, count) = match line.next()? {
            None => (start, 0),
            Some(Token::Word(b":")) => {
                let before = self.side.len();
                line.numbers(&mut self.side)?;
                let entries = self.side.len() - before;
                if !entries.is_multiple_of(size) {
                    return Err(line.error(uneven.into()));
                }
                (start, line.fits("how many side entries there are", entries / size)?)
            }
            Some(Token::Word(word)) if word[0] == b'@' => (line.parse("a place in side", &word[1..])?, line.number("a count")?),
            Some(Token::Word(word)) => return Err(line.wanted("`:` and side entries, or `@` and a place,", word)),
            Some(Token::Name(_)) => {
                return Err(line.error("`:` and side entries, or `@` and a place, is wanted, and not a name".into()));
            }
        };
        Ok(node(kind, [a, b, start, count]))
    }
}

/// The widest constant that is given by its value. It is far over the limit on bits, and keeps a slip of the pen from filling the memory.
const WIDEST_VALUE: usize = 1 << 20;

fn push_name(name: Vec<u8>, arena: &mut Vec<u8>, starts: &mut Vec<u64>, lens: &mut Vec<u64>) {
    starts.push(arena.len() as u64);
    lens.push(name.len() as u64);
    arena.extend(name);
}

enum Token<'t> {
    Word(&'t [u8]),
    Name(Vec<u8>),
}

/// A line, read from left to right.
struct Line<'t> {
    bytes: &'t [u8],
    /// The place reached.
    at: usize,
    /// Where the last token starts, or the end of the line.
    start: usize,
    number: usize,
}

impl<'t> Line<'t> {
    fn error(&self, message: String) -> TextError {
        TextError { line: self.number, column: self.start + 1, message }
    }

    fn wanted(&self, what: &str, found: &[u8]) -> TextError {
        self.error(format!("{what} is wanted, and `{}` is there", excerpt(found)))
    }

    /// The next token; none at the end of the line, or where a comment starts.
    fn next(&mut self) -> Result<Option<Token<'t>>, TextError> {
        let bytes = self.bytes;
        while self.at < bytes.len() && matches!(bytes[self.at], b' ' | b'\t') {
            self.at += 1;
        }
        self.start = self.at;
        match bytes.get(self.at) {
            None | Some(b';') => Ok(None),
            Some(b'|') => self.quoted().map(|name| Some(Token::Name(name))),
            Some(_) => {
                let length = bytes[self.at..].iter().take_while(|b| !matches!(b, b' ' | b'\t' | b';' | b'|')).count();
                self.at += length;
                Ok(Some(Token::Word(&bytes[self.start..self.at])))
            }
        }
    }

    /// A name between bars, in which `\x` and two digits stand for any byte.
    fn quoted(&mut self) -> Result<Vec<u8>, TextError> {
        let mut name = Vec::new();
        let mut rest = &self.bytes[self.at + 1..];
        loop {
            match rest {
                [] => return Err(self.error("the name has no bar at its end".into())),
                [b'|', ..] => {
                    self.at = self.bytes.len() - rest.len() + 1;
                    return Ok(name);
                }
                [b'\\', b'x', high, low, after @ ..] if high.is_ascii_hexdigit() && low.is_ascii_hexdigit() => {
                    let digit = |d: u8| char::from(d).to_digit(16).unwrap_or(0) as u8;
                    name.push(digit(*high) * 16 + digit(*low));
                    rest = after;
                }
                [b'\\', ..] => {
                    self.start = self.bytes.len() - rest.len();
                    return Err(self.error("after a backslash `x` and two hexadecimal digits are wanted".into()));
                }
                [byte, after @ ..] => {
                    name.push(*byte);
                    rest = after;
                }
            }
        }
    }

    fn word(&mut self, what: &str) -> Result<&'t [u8], TextError> {
        match self.next()? {
            Some(Token::Word(word)) => Ok(word),
            Some(Token::Name(_)) => Err(self.error(format!("{what} is wanted, and a name is there"))),
            None => Err(self.error(format!("{what} is wanted, and the line ends"))),
        }
    }

    fn name(&mut self) -> Result<Vec<u8>, TextError> {
        match self.next()? {
            Some(Token::Name(name)) => Ok(name),
            Some(Token::Word(word)) => Err(self.wanted("a name between bars", word)),
            None => Err(self.error("a name between bars is wanted, and the line ends".into())),
        }
    }

    fn end(&mut self) -> Result<(), TextError> {
        match self.next()? {
            None => Ok(()),
            Some(Token::Word(word)) => Err(self.wanted("the end of the line", word)),
            Some(Token::Name(_)) => Err(self.error("the end of the line is wanted, and a name is there".into())),
        }
    }

    fn parse<T: FromStr>(&self, what: &str, word: &[u8]) -> Result<T, TextError> {
        let digits = word.iter().all(u8::is_ascii_digit);
        let number = std::str::from_utf8(word).ok().filter(|_| digits).and_then(|word| word.parse().ok());
        number.ok_or_else(|| {
            let bits = 8 * size_of::<T>();
            if digits && !word.is_empty() {
                self.error(format!("{what} is wanted, and the number there does not fit {bits} bits"))
            } else {
                self.wanted(what, word)
            }
        })
    }

    fn number<T: FromStr>(&mut self, what: &str) -> Result<T, TextError> {
        let word = self.word(what)?;
        self.parse(what, word)
    }

    /// The operands that a kind has, each with what it is called.
    fn operands(&mut self, count: usize, called: impl Fn(usize) -> &'static str) -> Result<[u32; 4], TextError> {
        let mut operands = [0; 4];
        for (i, operand) in operands.iter_mut().enumerate().take(count) {
            *operand = self.number(&format!("operand {} of {count}, {},", i + 1, called(i)))?;
        }
        Ok(operands)
    }

    /// The rest of the line, as numbers.
    fn numbers<T: FromStr>(&mut self, to: &mut Vec<T>) -> Result<(), TextError> {
        while let Some(token) = self.next()? {
            match token {
                Token::Word(word) => to.push(self.parse("a number", word)?),
                Token::Name(_) => return Err(self.error("a number is wanted, and a name is there".into())),
            }
        }
        Ok(())
    }

    fn fits(&self, what: &str, number: usize) -> Result<u32, TextError> {
        u32::try_from(number).map_err(|_| self.error(format!("{what} does not fit 32 bits")))
    }
}

/// What stands in a text, for a message: of what is long the start.
pub fn excerpt(bytes: &[u8]) -> String {
    const LONGEST: usize = 60;
    let start = String::from_utf8_lossy(&bytes[..bytes.len().min(LONGEST)]).escape_debug().to_string();
    if bytes.len() > LONGEST { start + " .." } else { start }
}

/// The word for a kind: its name in lower case.
fn kind_word(kind: u8) -> String {
    kind::name(kind).unwrap_or("record").to_lowercase()
}

/// What an operand of a kind is called in a message, by its place from 0. Constants, selects and calls are read apart.
fn operand(kind: u8, place: usize) -> &'static str {
    match (kind, place) {
        (kind::VAR, _) => "the width",
        (kind::EXTRACT, 0) => "the highest bit",
        (kind::EXTRACT, 1) => "the lowest bit",
        (kind::ZERO_EXT | kind::SIGN_EXT, 1) => "how many bits more",
        (kind::ITE, 0) => "the node of the condition",
        (kind::ROTL | kind::ROTR, 1) => "the node of the amount",
        _ => "the number of a node",
    }
}

// ---------------------------------------------------------------- writing

/// A table: the word of its lines, its arena, where the names start and how long they are, its other columns in the order of a line, and
/// which input the arena is. The other columns follow it in the inputs.
type Table<'a> = (&'static str, &'a [u8], &'a [u64], &'a [u64], &'a [&'a [u64]], usize);

/// How many numbers a list of an input has on a line.
const ON_A_LINE: usize = 32;

impl Problem<'_> {
    /// Writes the text form.
    pub fn to_text(&self) -> Vec<u8> {
        let mut out = format!("{TEXT_HEAD}\n").into_bytes();
        let tables: [Table<'_>; 3] = [
            ("variable", self.names, self.name_start, self.name_len, &[self.var_width, self.var_node], 4),
            ("array", self.anames, self.aname_start, self.aname_len, &[self.index_width, self.value_width], 9),
            ("function", self.fnames, self.fname_start, self.fname_len, &[self.func_width], 14),
        ];
        let mut lists: Vec<(usize, usize)> = Vec::new(); // inputs to be listed, and from which element on
        for (word, arena, starts, lens, columns, input) in tables {
            match laid_out(arena, starts, lens, columns) {
                Some(names) => {
                    for (i, name) in names.iter().enumerate() {
                        let numbers: Vec<String> = columns.iter().map(|column| column[i].to_string()).collect();
                        let between = if word == "variable" { " node " } else { " " };
                        out.extend(
                            [word.as_bytes(), b" ", &quoted_name(name), b" ", numbers.join(between).as_bytes(), b"\n"].concat(),
                        );
                    }
                    lists.push((input, names.iter().map(|name| name.len()).sum()));
                }
                None => lists.extend((input..input + 3 + columns.len()).map(|i| (i, 0))),
            }
        }
        let (mut bits, mut side) = (0, 0);
        let (records, rest) = self.nodes.as_chunks::<NODE_BYTES>();
        for (i, record) in records.iter().enumerate() {
            line(&mut out, &format!("{i} {}", self.node_text(record, &mut bits, &mut side)));
        }
        for root in self.roots {
            line(&mut out, &format!("root {root}"));
        }
        lists.extend([(0, self.nodes.len() - rest.len()), (1, bits), (2, side)]);
        lists.sort_unstable();
        let inputs = self.inputs();
        for (input, from) in lists {
            let (name, elements) = inputs[input];
            let numbers: Vec<String> = match elements {
                Input::Bytes(bytes) => bytes[from..].iter().map(u8::to_string).collect(),
                Input::Numbers(numbers) => numbers[from..].iter().map(u64::to_string).collect(),
            };
            for some in numbers.chunks(ON_A_LINE) {
                line(&mut out, &format!("{name} {}", some.join(" ")));
            }
        }
        out
    }

    /// A node without its number. Bits and side entries that come next are written beside it.
    fn node_text(&self, record: &[u8; NODE_BYTES], bits: &mut usize, side: &mut usize) -> String {
        let (kind, operands) = node_parts(record);
        let Some(count) = kind::operand_count(kind).filter(|count| operands[*count..].iter().all(|operand| *operand == 0)) else {
            return format!("record {kind} {}", joined(&operands));
        };
        let [a, b, c, d] = operands;
        match kind {
            kind::CONST => match self.bits.get(a as usize..).and_then(|from| from.get(..b as usize)) {
                Some(own) if a as usize == *bits && b > 0 && own.iter().all(|bit| *bit < 2) => {
                    *bits += own.len();
                    format!("const #b{}", own.iter().rev().map(|bit| char::from(b'0' + bit)).collect::<String>())
                }
                _ => format!("const @{a} {b}"),
            },
            kind::SELECT | kind::CALL => {
                let entries = d as usize * if kind == kind::SELECT { 2 } else { 1 };
                let head = format!("{} {a} {b}", kind_word(kind));
                match self.side.get(c as usize..).and_then(|from| from.get(..entries)) {
                    Some(own) if c as usize == *side => {
                        *side += own.len();
                        if own.is_empty() { head } else { format!("{head} : {}", joined(own)) }
                    }
                    _ => format!("{head} @{c} {d}"),
                }
            }
            _ => format!("{} {}", kind_word(kind), joined(&operands[..count])),
        }
    }

    /// A node as a line of the text form has it, without its number, and with the places of bits and side entries. `None` where there is
    /// no such node.
    pub fn node_line(&self, node: usize) -> Option<String> {
        let record = self.nodes.as_chunks::<NODE_BYTES>().0.get(node)?;
        let (mut bits, mut side) = (usize::MAX, usize::MAX);
        Some(self.node_text(record, &mut bits, &mut side))
    }
}

/// The kind and the operands of a record: the other way about than [`node`].
pub fn node_parts(record: &[u8; NODE_BYTES]) -> (u8, [u32; 4]) {
    let words = record[1..].as_chunks().0;
    (record[0], std::array::from_fn(|i| u32::from_le_bytes(words[i])))
}

fn joined<T: ToString>(numbers: &[T]) -> String {
    numbers.iter().map(T::to_string).collect::<Vec<_>>().join(" ")
}

/// The names of a table, if the reader would lay it out like this: columns of one length, and each name where the one before it ends.
fn laid_out<'a>(arena: &'a [u8], starts: &[u64], lens: &[u64], columns: &[&[u64]]) -> Option<Vec<&'a [u8]>> {
    if lens.len() != starts.len() || columns.iter().any(|column| column.len() != starts.len()) {
        return None;
    }
    let mut at = 0;
    let mut names = Vec::new();
    for (start, len) in starts.iter().zip(lens) {
        let name = arena.get(at..)?.get(..usize::try_from(*len).ok()?)?;
        if *start != at as u64 {
            return None;
        }
        at += name.len();
        names.push(name);
    }
    Some(names)
}

/// A name between bars as the text form has it, bytes that a script's name may not have written as `\x` and two digits.
pub fn quoted_name(name: &[u8]) -> Vec<u8> {
    let mut out = vec![b'|'];
    for byte in name {
        match byte {
            0..=31 | 127 | b'|' | b'\\' => write!(out, "\\x{byte:02x}").expect("a vector takes all"),
            _ => out.push(*byte),
        }
    }
    out.push(b'|');
    out
}

fn line(out: &mut Vec<u8>, text: &str) {
    out.extend(text.bytes());
    out.push(b'\n');
}
