//! A trace as CSV: the names of the variables, and a row of values a line. docs/FORMATS.md has the form.

use crate::{Problem, TEXT_MARK, TextError, excerpt, quoted_name};
use std::borrow::Cow;

/// A trace that was read from CSV: the values in the order that [`replay_trace`](crate::replay_trace) wants, and where each of them stands.
///
/// ```
/// use smt_echo::{OwnedProblem, Trace, replay_trace};
///
/// let problem = OwnedProblem::from_text(
///     b"problem\nvariable |a| 8 node 0\nvariable |b| 8 node 1\n0 var 8\n1 var 8\n2 ult 0 1\nroot 2\n",
/// )?;
/// let problem = problem.lend();
/// let trace = Trace::from_csv(&problem, b"b,a\n4,3\n0x10,255\n")?;
/// assert_eq!(trace.values(), [3, 4, 255, 16]);
///
/// let (mut masks, mut counts) = ([0; 2], [0; 2]);
/// assert_eq!(replay_trace(&problem, trace.values(), &mut masks, &mut counts), Ok(2));
/// assert_eq!(masks, [1, 0]);
/// # Ok::<(), Box<dyn std::error::Error>>(())
/// ```
#[derive(Clone, Debug)]
pub struct Trace<'a> {
    csv: &'a [u8],
    /// For each column the variable that it is of.
    variables: Vec<usize>,
    values: Vec<u64>,
}

/// A field of a line: where it starts there, and its bytes without the quotes.
type Field<'l> = (usize, Cow<'l, [u8]>);

impl<'a> Trace<'a> {
    /// Reads CSV. The head has each variable of the problem once, in any order. Whether a value fits its variable's width is not looked
    /// at: [`misfit`](Trace::misfit) tells the first that does not.
    ///
    /// The names of the problem have to be all different, as those of every problem are that is not refused.
    pub fn from_csv(problem: &Problem<'_>, csv: &'a [u8]) -> Result<Trace<'a>, TextError> {
        let csv = csv.strip_prefix(TEXT_MARK).unwrap_or(csv);
        let names = names(problem);
        let mut trace = Trace { csv, variables: Vec::new(), values: Vec::new() };
        let mut lines = lines(csv);
        let (_, head) = lines.next().unwrap_or((1, b""));
        for (start, field) in if blank(head) { Vec::new() } else { fields(1, head)? } {
            let name = field.strip_prefix(b"|").and_then(|name| name.strip_suffix(b"|")).unwrap_or(&field);
            match names.iter().position(|known| *known == Some(name)) {
                None => return Err(error(1, start, format!("there is no variable {}; leave the column out", shown(name)))),
                Some(variable) if trace.variables.contains(&variable) => {
                    return Err(error(1, start, format!("{} stands there twice", shown(name))));
                }
                Some(variable) => trace.variables.push(variable),
            }
        }
        if let Some(missing) = (0..names.len()).find(|variable| !trace.variables.contains(variable)) {
            let name = shown(names[missing].unwrap_or_default());
            return Err(error(1, head.len(), format!("a column for {name} is wanted, and the line ends")));
        }
        let mut row = vec![0; names.len()];
        while let Some((number, line)) = lines.next() {
            if blank(line) {
                match lines.find(|(_, line)| !blank(line)) {
                    None => break,
                    Some(_) => return Err(error(number, 0, "a row is wanted, and the line is empty".into())),
                }
            }
            let found = fields(number, line)?;
            let columns = trace.variables.len();
            if let Some((start, field)) = found.get(columns) {
                return Err(error(number, *start, format!("the end of the line is wanted, and `{}` is there", excerpt(field))));
            }
            if found.len() < columns {
                return Err(error(
                    number,
                    line.len(),
                    format!("value {} of {columns} is wanted, and the line ends", found.len() + 1),
                ));
            }
            for ((start, field), variable) in found.iter().zip(&trace.variables) {
                row[*variable] = value(field).map_err(|message| error(number, *start, message))?;
            }
            if trace.values.try_reserve(row.len()).is_err() {
                return Err(error(
                    number,
                    0,
                    "there are more rows than memory allows; replay it in parts, each with the head".into(),
                ));
            }
            trace.values.extend(&row);
        }
        Ok(trace)
    }

    /// The values, row by row, each row in the order of the problem's table of variables.
    pub fn values(&self) -> &[u64] {
        &self.values
    }

    /// How many rows there are; without variables one.
    pub fn rows(&self) -> usize {
        if self.variables.is_empty() { 1 } else { self.values.len() / self.variables.len() }
    }

    /// The first value, in the order of the text, that does not fit the width of its variable.
    pub fn misfit(&self, problem: &Problem<'_>) -> Option<TextError> {
        let width = |variable: usize| problem.var_width.get(variable).copied().unwrap_or(0);
        let fits = |value: u64, variable: usize| width(variable) >= 64 || value >> width(variable) == 0;
        let mut rows = self.values.chunks(self.variables.len().max(1)).zip(lines(self.csv).skip(1));
        rows.find_map(|(row, (number, line))| {
            let column = self.variables.iter().position(|variable| !fits(row[*variable], *variable))?;
            let variable = self.variables[column];
            let (start, field) = fields(number, line).ok()?.swap_remove(column);
            let (there, name) = (String::from_utf8_lossy(&field), shown(names(problem)[variable].unwrap_or_default()));
            Some(error(number, start, format!("{there} does not fit {} bits, the width of {name}", width(variable))))
        })
    }
}

/// The names of the variables; none for one that is not in its arena.
fn names<'p>(problem: &Problem<'p>) -> Vec<Option<&'p [u8]>> {
    let name =
        |(start, len): (&u64, &u64)| problem.names.get(usize::try_from(*start).ok()?..)?.get(..usize::try_from(*len).ok()?);
    problem.name_start.iter().zip(problem.name_len).map(name).collect()
}

/// A name for a message, which is text: of a long one the start.
fn shown(name: &[u8]) -> String {
    const LONGEST: usize = 200;
    let start = String::from_utf8_lossy(&quoted_name(&name[..name.len().min(LONGEST)])).into_owned();
    if name.len() > LONGEST { start + " .." } else { start }
}

fn error(line: usize, start: usize, message: String) -> TextError {
    TextError { line, column: start + 1, message }
}

/// The lines with their numbers, from 1.
fn lines(csv: &[u8]) -> impl Iterator<Item = (usize, &[u8])> {
    let lines = csv.split(|byte| *byte == b'\n').map(|line| line.strip_suffix(b"\r").unwrap_or(line));
    lines.enumerate().map(|(i, line)| (i + 1, line))
}

fn blank(line: &[u8]) -> bool {
    line.iter().all(|byte| matches!(byte, b' ' | b'\t'))
}

/// The fields of a line: what stands between commas, without the blanks at its ends, or between quotes, where two stand for one.
fn fields(number: usize, line: &[u8]) -> Result<Vec<Field<'_>>, TextError> {
    let mut found = Vec::new();
    let mut at = 0;
    let blanks = |from: usize| line[from..].iter().take_while(|byte| matches!(byte, b' ' | b'\t')).count();
    loop {
        at += blanks(at);
        let start = at;
        let field = if line.get(at) == Some(&b'"') {
            let mut field = Vec::new();
            loop {
                at += 1;
                match &line[at..] {
                    [] => return Err(error(number, start, "the field has no quote at its end".into())),
                    [b'"', b'"', ..] => {
                        field.push(b'"');
                        at += 1;
                    }
                    [b'"', ..] => break,
                    [byte, ..] => field.push(*byte),
                }
            }
            at += 1;
            at += blanks(at);
            field.into()
        } else {
            at += line[at..].iter().take_while(|byte| **byte != b',').count();
            let after = line[start..at].iter().rev().take_while(|byte| matches!(byte, b' ' | b'\t')).count();
            line[start..at - after].into()
        };
        found.push((start, field));
        match line.get(at) {
            None => return Ok(found),
            Some(b',') => at += 1,
            Some(_) => return Err(error(number, at, "a comma is wanted after the quote".into())),
        }
    }
}

/// A value: decimal; hexadecimal behind `0x`; or as a solver writes it, behind `#x` or `#b`.
fn value(field: &[u8]) -> Result<u64, String> {
    let (digits, radix) = match field {
        [b'0', b'x' | b'X', digits @ ..] | [b'#', b'x', digits @ ..] => (digits, 16),
        [b'#', b'b', digits @ ..] => (digits, 2),
        digits => (digits, 10),
    };
    let text = std::str::from_utf8(digits).ok().filter(|text| !text.is_empty() && text.chars().all(|c| c.is_digit(radix)));
    match text {
        Some(text) => {
            u64::from_str_radix(text, radix).map_err(|_| "a value is wanted, and the number there does not fit 64 bits".into())
        }
        None => {
            let negative = matches!(field, [b'-', b'0'..=b'9', ..]);
            let next = if negative { "; a negative value is written in two's complement, -2 as 0xfe for 8 bits" } else { "" };
            Err(format!("a value is wanted, and `{}` is there{next}", excerpt(field)))
        }
    }
}
