//! The binary layout and the text form: either way round gives back what was begun with, and errors tell where they are.

mod common;

use common::*;
use smt_echo::*;

/// Both forms of a problem, read back.
#[track_caller]
fn round_trips(problem: &OwnedProblem) -> String {
    let lent = problem.lend();
    let layout = lent.to_layout();
    assert_eq!(OwnedProblem::from_layout(&layout).as_ref(), Ok(problem));
    let text = lent.to_text();
    let again = OwnedProblem::from_text(&text).unwrap_or_else(|error| panic!("{error}:\n{}", String::from_utf8_lossy(&text)));
    assert_eq!(&again, problem, "{}", String::from_utf8_lossy(&text));
    assert_eq!(again.lend().to_layout(), layout);
    assert_eq!(again.lend().to_text(), text);
    String::from_utf8_lossy(&text).into_owned()
}

fn owned(problem: Problem<'_>) -> OwnedProblem {
    OwnedProblem::from_layout(&problem.to_layout()).expect("a layout")
}

const RICH: &str = "problem
variable |i| 32 node 0
variable |v| 8 node 1
array |m| 32 8
function |f| 8
0 var 32
1 var 8
2 select 0 0 : 0 1 0 1
3 call 0 8 : 0 1
4 const #b00000101
5 ite 8 3 4
6 extract 7 0 5
7 rotl 6 4
8 ule 1 4
9 eq 2 7
root 9
";

#[test]
fn what_show_writes() {
    assert_eq!(round_trips(&OwnedProblem::default()), "problem\n");
    let nodes = m2_nodes().concat();
    let text = "problem\nvariable |x| 8 node 0\n0 var 8\n1 const #b00000101\n2 add 0 1\n3 eq 2 0\nroot 3\n";
    assert_eq!(round_trips(&owned(m2(&nodes))), text);
    let rich = OwnedProblem::from_text(RICH.as_bytes()).unwrap();
    assert_eq!(round_trips(&rich), RICH);
    assert_eq!(rich.side, [0, 1, 0, 1, 0, 1]);
    assert_eq!(rich.nodes[2 * 17..4 * 17], [node(kind::SELECT, [0, 0, 0, 2]), node(kind::CALL, [0, 8, 4, 2])].concat());
}

#[test]
fn what_is_laid_out_otherwise() {
    let nodes = m2_nodes().concat();
    let base = m2(&nodes);
    // Bits that two constants share, bits that none has, a bit that is none; a constant past the bits.
    let shared = [node(kind::CONST, [0, 4, 0, 0]), node(kind::CONST, [2, 4, 0, 0]), node(kind::CONST, [4, 9, 0, 0])].concat();
    let bits = [1, 0, 1, 1, 0, 0, 7];
    assert_eq!(
        round_trips(&owned(Problem { nodes: &shared, bits: &bits, ..Problem::default() })),
        "problem\n0 const #b1101\n1 const @2 4\n2 const @4 9\nbits 0 0 7\n"
    );
    // Side entries likewise, and lists that are empty and start elsewhere.
    let calls = [node(kind::CALL, [0, 8, 1, 2]), node(kind::SELECT, [0, 3, 0, 1]), node(kind::CALL, [0, 8, 9, 0])].concat();
    assert_eq!(
        round_trips(&owned(Problem { nodes: &calls, side: &[1, 2, u64::MAX], ..Problem::default() })),
        "problem\n0 call 0 8 @1 2\n1 select 0 3 : 1 2\n2 call 0 8 @9 0\nside 18446744073709551615\n"
    );
    // Kinds that are none, operands that the kind does not have, a record that is cut short.
    let odd = [&node(39, [1, 2, 3, 4])[..], &node(kind::NEG, [0, 0, 0, 1]), &[2, 1, 0]].concat();
    assert_eq!(
        round_trips(&owned(Problem { nodes: &odd, ..Problem::default() })),
        "problem\n0 record 39 1 2 3 4\n1 record 33 0 0 0 1\nnodes 2 1 0\n"
    );
    // Names that lie elsewhere, columns of different lengths: the table as lists. The other tables are as they were.
    for (problem, lines) in [
        (Problem { name_start: &[1], ..base }, "names 120\nname_start 1\nname_len 1\nvar_node 0\nvar_width 8\n"),
        (
            Problem { name_len: &[u64::MAX], ..base },
            "names 120\nname_start 0\nname_len 18446744073709551615\nvar_node 0\nvar_width 8\n",
        ),
        (Problem { var_width: &[], ..base }, "names 120\nname_start 0\nname_len 1\nvar_node 0\n"),
        (Problem { anames: b"ab", index_width: &[24], ..Problem::default() }, "anames 97 98\nindex_width 24\n"),
        (Problem { func_width: &[8, 9], ..Problem::default() }, "func_width 8 9\n"),
    ] {
        let text = round_trips(&owned(problem));
        assert!(text.ends_with(lines), "{text}");
    }
    assert_eq!(round_trips(&owned(Problem { names: b"xyz", ..base })).lines().last(), Some("names 121 122"));
}

#[test]
fn names_of_any_bytes() {
    for name in [&b""[..], b"a b", b";", b"|", b"\\", b"\n", b"\r", b"\0\x1f\x7f\x80\xff", "Größe 領域".as_bytes(), b"\\x41"]
    {
        let nodes = m2_nodes().concat();
        let problem = owned(Problem { names: name, name_len: &[name.len() as u64], ..m2(&nodes) });
        let text = round_trips(&problem);
        assert!(text.lines().all(|line| line.chars().all(|c| c >= ' ')), "{text:?}");
        assert_eq!(text.lines().count(), 7, "{text:?}");
    }
    assert_eq!(OwnedProblem::from_text(b"problem\nfunction |\\x41\\x6a| 8\n").unwrap().fnames, b"Aj");
}

#[test]
fn what_people_write() {
    let nodes = m2_nodes().concat();
    let want = owned(m2(&nodes));
    for text in [
        "problem\nvariable |x| 8 node 0\n0 var 8\n1 const 5 8\n2 add 0 1\n3 eq 2 0\nroot 3",
        "problem ; M2\r\n\r\n\t0 var 8\r\n1  const\t#b00000101;five\r\n2 add 0 1\r\n3 eq 2 0 ; sum\r\nroot 3\r\nvariable |x| 8 node 0\r\n",
        "problem\nroots 3\nnames 120\nname_start 0\nname_len 1\nvar_node 0\nvar_width 8\nbits 1 0 1 0 0\nbits 0 0 0\n\
         0 record 0 8 0 0 0\n1 const @0 8\n2 record 2 0 1 0 0\n3 eq 2 0\n",
    ] {
        assert_eq!(OwnedProblem::from_text(text.as_bytes()).as_ref(), Ok(&want), "{text}");
    }
    // Values: the widest, 0 in any width, and no width.
    let value = |line: &str| OwnedProblem::from_text(format!("problem\n0 const {line}\n").as_bytes()).map(|p| p.bits);
    assert_eq!(value("340282366920938463463374607431768211455 128"), Ok(vec![1; 128]));
    assert_eq!(value("0 200"), Ok(vec![0; 200]));
    assert_eq!(value("6 129").map(|bits| (bits.len(), bits[..4].to_vec())), Ok((129, vec![0, 1, 1, 0])));
    assert_eq!(value("0 0"), Ok(vec![]));
    for kind in 0..kind::COUNT {
        let name = kind::name(kind).unwrap().to_lowercase();
        let operands = ["", " 1", " 1 2", " 1 2 3"].get(kind::operand_count(kind).unwrap()).unwrap_or(&" 1 2");
        let line = if kind == kind::CONST { "const @1 2".into() } else { format!("{name}{operands}") };
        let problem = OwnedProblem::from_text(format!("problem\n0 {line}\n").as_bytes()).unwrap();
        assert_eq!(problem.nodes[0], kind);
        assert_eq!(round_trips(&problem), format!("problem\n0 {line}\n"));
    }
}

#[test]
fn errors_tell_line_and_column() {
    for (text, line, column, message) in [
        ("", 1, 1, "the first line, `problem`, is wanted, and the line ends"),
        ("problems\n", 1, 1, "the first line, `problem`, is wanted, and `problems` is there"),
        ("problem 2\n", 1, 9, "the end of the line is wanted, and `2` is there"),
        ("problem\nvariable x 8 node 0\n", 2, 10, "a name between bars is wanted, and `x` is there"),
        ("problem\nvariable |x 8 node 0\n", 2, 10, "the name has no bar at its end"),
        ("problem\nvariable |a\\n| 8 node 0\n", 2, 12, "after a backslash `x` and two hexadecimal digits are wanted"),
        ("problem\nvariable |x| 8\n", 2, 15, "`node` is wanted, and the line ends"),
        ("problem\nvariable |x| 8 at 0\n", 2, 16, "`node` is wanted, and `at` is there"),
        ("problem\nvariable |x| eight node 0\n", 2, 14, "the width is wanted, and `eight` is there"),
        ("problem\narray |m| 32\n", 2, 13, "the width of the value is wanted, and the line ends"),
        ("problem\nfunction |f| |g|\n", 2, 14, "the width is wanted, and a name is there"),
        ("problem\n|x|\n", 2, 1, "a line begins with a word or a node's number, and not with a name"),
        (
            "problem\n\n; a comment\nrooot 1\n",
            4,
            1,
            "a declaration, a node, a root or the name of an input is wanted, and `rooot` is there",
        ),
        (
            "problem\nroot 18446744073709551616\n",
            2,
            6,
            "the number of a node is wanted, and the number there does not fit 64 bits",
        ),
        ("problem\nroot -1\n", 2, 6, "the number of a node is wanted, and `-1` is there"),
        ("problem\nroot +1\n", 2, 6, "the number of a node is wanted, and `+1` is there"),
        ("problem\n1 var 8\n", 2, 1, "this is node 0: nodes stand in order, from 0 on"),
        ("problem\n0 var 8\n0 var 8\n", 3, 1, "this is node 1: nodes stand in order, from 0 on"),
        ("problem\nnodes 1 2\n0 var 8\n", 3, 1, "the bytes of `nodes` before this line end inside a record"),
        ("problem\n0 plus 1 2\n", 2, 3, "a kind is wanted, and `plus` is there"),
        ("problem\n0 ADD 1 2\n", 2, 3, "a kind is wanted, and `ADD` is there"),
        ("problem\n0 add 1\n", 2, 8, "operand 2 of 2, the number of a node, is wanted, and the line ends"),
        ("problem\n0 add 1 2 3\n", 2, 11, "the end of the line is wanted, and `3` is there"),
        (
            "problem\n0 neg 4294967296\n",
            2,
            7,
            "operand 1 of 1, the number of a node, is wanted, and the number there does not fit 32 bits",
        ),
        ("problem\n0 var\n", 2, 6, "operand 1 of 1, the width, is wanted, and the line ends"),
        ("problem\n0 extract\n", 2, 10, "operand 1 of 3, the highest bit, is wanted, and the line ends"),
        ("problem\n0 extract 7\n", 2, 12, "operand 2 of 3, the lowest bit, is wanted, and the line ends"),
        ("problem\n0 extract 7 0 |x|\n", 2, 15, "operand 3 of 3, the number of a node, is wanted, and a name is there"),
        ("problem\n0 zero_ext x\n", 2, 12, "operand 1 of 2, the number of a node, is wanted, and `x` is there"),
        ("problem\n0 sign_ext 0 x\n", 2, 14, "operand 2 of 2, how many bits more, is wanted, and `x` is there"),
        ("problem\n0 ite x 0 1\n", 2, 7, "operand 1 of 3, the node of the condition, is wanted, and `x` is there"),
        ("problem\n0 ite 0 1\n", 2, 10, "operand 3 of 3, the number of a node, is wanted, and the line ends"),
        ("problem\n0 rotr 0\n", 2, 9, "operand 2 of 2, the node of the amount, is wanted, and the line ends"),
        ("problem\n0 record 39 0 x\n", 2, 15, "operand 2 of 4, a number, is wanted, and `x` is there"),
        ("problem\n0 record 256 0 0 0 0\n", 2, 10, "the number of a kind is wanted, and the number there does not fit 8 bits"),
        ("problem\n0 const\n", 2, 8, "`#b` and digits, a decimal value, or `@` and a place, is wanted, and the line ends"),
        ("problem\n0 const #b\n", 2, 9, "`#b` and digits 0 and 1 is wanted, and `#b` is there"),
        ("problem\n0 const #b012\n", 2, 9, "`#b` and digits 0 and 1 is wanted, and `#b012` is there"),
        ("problem\n0 const 256 8\n", 2, 9, "256 does not fit 8 bits"),
        ("problem\n0 const 1 0\n", 2, 9, "1 does not fit 0 bits"),
        ("problem\n0 const 0 4294967295\n", 2, 11, "a constant given by its value has at most 1048576 bits"),
        ("problem\n0 const 5\n", 2, 10, "the width is wanted, and the line ends"),
        ("problem\n0 const @ 8\n", 2, 9, "a place in bits is wanted, and `` is there"),
        ("problem\n0 select 0 0 : 1\n", 2, 17, "a select has pairs of an index and a value"),
        ("problem\n0 select 0 0 1 2\n", 2, 14, "`:` and side entries, or `@` and a place, is wanted, and `1` is there"),
        ("problem\n0 select 0 0 :0 1\n", 2, 14, "`:` and side entries, or `@` and a place, is wanted, and `:0` is there"),
        ("problem\n0 select |m| 0\n", 2, 10, "the number of an array is wanted, and a name is there"),
        ("problem\n0 select 0\n", 2, 11, "the node of the index is wanted, and the line ends"),
        ("problem\n0 call |f| 8\n", 2, 8, "the number of a function is wanted, and a name is there"),
        ("problem\n0 call 0\n", 2, 9, "the width is wanted, and the line ends"),
        (
            "problem\n0 const 0x5 8\n",
            2,
            9,
            "`#b` and digits, a decimal value below 2^128, or `@` and a place, is wanted, and `0x5` is there",
        ),
        ("problem\n0 call 0 8 |f|\n", 2, 12, "`:` and side entries, or `@` and a place, is wanted, and not a name"),
        ("problem\n0 call 0 8 @1\n", 2, 14, "a count is wanted, and the line ends"),
        ("problem\n0 call 0 8 : x\n", 2, 14, "a number is wanted, and `x` is there"),
        ("problem\nbits 0 256\n", 2, 8, "a number is wanted, and the number there does not fit 8 bits"),
        ("problem\nside |x|\n", 2, 6, "a number is wanted, and a name is there"),
    ] {
        let error = OwnedProblem::from_text(text.as_bytes()).expect_err(text);
        assert_eq!((error.line, error.column, error.message.as_str()), (line, column, message), "{text}");
        assert_eq!(error.to_string(), format!("line {line}, column {column}: {message}"));
    }
}

#[test]
fn layouts_that_are_none() {
    let nodes = m2_nodes().concat();
    let layout = m2(&nodes).to_layout();
    assert_eq!(layout.len(), 261);
    for end in 0..layout.len() {
        let error = OwnedProblem::from_layout(&layout[..end]).expect_err("cut short");
        assert!(matches!(error, LayoutError::Early { .. }), "{end}");
    }
    let early = OwnedProblem::from_layout(&layout[..95]).unwrap_err();
    assert_eq!(early.to_string(), "ends early in input 3, side");
    let more = OwnedProblem::from_layout(&[&layout[..], &[0]].concat()).unwrap_err();
    assert_eq!(more.to_string(), "bytes are left over after input 18, func_width");
    for count in [u64::MAX, 1 << 61, 1 << 63] {
        for input in 0..18 {
            let mut bytes = vec![0; 8 * input];
            bytes.extend(count.to_le_bytes());
            bytes.extend([0; 300]);
            assert_eq!(OwnedProblem::from_layout(&bytes), Err(LayoutError::Early { input }));
        }
    }
}

/// Problems at random: pieces of all kinds, whole and damaged.
#[test]
fn any_problem_comes_back() {
    let mut seed = 20_261_116u64;
    let mut below = move |n: u64| {
        seed = seed.wrapping_mul(6_364_136_223_846_793_005).wrapping_add(1_442_695_040_888_963_407);
        (seed >> 33) % n
    };
    for _ in 0..3_000 {
        let mut p = OwnedProblem::default();
        for _ in 0..below(8) {
            let kinds = if below(9) == 0 { 256 } else { u64::from(kind::COUNT) };
            let kind = below(kinds) as u8;
            let used = kind::operand_count(kind).unwrap_or(4);
            let mut operands = [0; 4];
            for operand in &mut operands[..used] {
                let most = if below(9) == 0 { 1 << 31 } else { 6 };
                *operand = below(most) as u32;
            }
            // Most constants, selects and calls take what comes next.
            if below(4) > 0 && kind == kind::CONST {
                operands[0] = p.bits.len() as u32;
                p.bits.extend((0..operands[1].min(9)).map(|_| below(2) as u8));
            }
            if below(4) > 0 && used == 4 {
                operands[2] = p.side.len() as u32;
                p.side.extend((0..operands[3].min(9)).map(|_| below(9)));
            }
            p.nodes.extend(node(kind, operands));
        }
        let damage = below(20);
        if damage == 0 {
            p.nodes.truncate(p.nodes.len().saturating_sub(below(17) as usize));
        }
        p.bits.extend((0..below(3)).map(|_| below(4) as u8));
        p.roots.extend((0..below(4)).map(|_| below(9)));
        for _ in 0..below(4) {
            p.name_start.push(if below(9) == 0 { below(9) } else { p.names.len() as u64 });
            let name: Vec<u8> = (0..below(4)).map(|_| below(256) as u8).collect();
            p.name_len.push(name.len() as u64);
            p.names.extend(name);
            p.var_node.push(below(9));
            p.var_width.push(below(70));
        }
        if damage == 1 {
            p.var_node.pop();
        }
        if damage == 2 {
            p.func_width.push(below(u64::MAX));
        }
        round_trips(&p);
    }
}
