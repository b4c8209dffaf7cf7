//! The command, run as its users run it: every subcommand, every refusal, every exit status, pipes, and files of all sorts.

mod common;

use common::*;
use smt_echo::*;
use std::ffi::OsStr;
use std::fs;
use std::io::Write;
use std::path::{Path, PathBuf};
use std::process::{Command, Stdio};

const PROGRAM: &str = env!("CARGO_BIN_EXE_smt-echo");

const SUBCOMMANDS: [&str; 12] =
    ["print", "size", "widths", "formulas", "fewest", "split", "read", "release", "replay", "shorten", "lengthen", "show"];

const M2: &str = "problem\nvariable |x| 8 node 0\n0 var 8\n1 const 5 8\n2 add 0 1\n3 eq 2 0\nroot 3\n";

/// What the program did.
#[derive(Debug)]
struct Ran {
    status: i32,
    out: Vec<u8>,
    err: String,
}

impl Ran {
    /// Done: the result, with nothing on standard error.
    #[track_caller]
    fn done(self) -> Vec<u8> {
        assert_eq!((self.status, self.err.as_str()), (0, ""), "{self:?}");
        self.out
    }

    /// Refused: the number, and what to look at. Nothing on standard output.
    #[track_caller]
    fn refused(self) -> (u64, String) {
        assert!(self.status == 1 && self.out.is_empty(), "{self:?}");
        let (first, rest) = self.err.split_once('\n').expect("a line");
        let number = first.strip_prefix("refused: ").and_then(|text| text.split(' ').next()).expect("a number");
        let look = rest.strip_prefix("look at: ").and_then(|text| text.strip_suffix('\n')).expect("what to look at");
        assert!(!look.contains('\n'), "{look}");
        (number.parse().expect("a number"), look.into())
    }

    /// Not done: the one line on standard error. Nothing on standard output.
    #[track_caller]
    fn not_done(self) -> String {
        assert!(self.status == 2 && self.out.is_empty(), "{self:?}");
        let line = self.err.strip_prefix("smt-echo: ").and_then(|text| text.strip_suffix('\n')).expect("one line");
        assert!(!line.contains('\n'), "{line}");
        line.into()
    }
}

fn run<S: AsRef<OsStr>>(args: &[S], input: &[u8]) -> Ran {
    let mut child = Command::new(PROGRAM)
        .args(args)
        .stdin(Stdio::piped())
        .stdout(Stdio::piped())
        .stderr(Stdio::piped())
        .spawn()
        .expect("the program starts");
    let mut stdin = child.stdin.take().expect("a pipe");
    let input = input.to_vec();
    // The program may end before it has read everything.
    let feeder = std::thread::spawn(move || _ = stdin.write_all(&input));
    let output = child.wait_with_output().expect("the program ends");
    feeder.join().expect("fed");
    let status = output.status.code().expect("it ends by itself");
    Ran { status, out: output.stdout, err: String::from_utf8(output.stderr).expect("text") }
}

/// An empty folder.
fn folder(name: &str) -> PathBuf {
    let folder = Path::new(env!("CARGO_TARGET_TMPDIR")).join(name);
    _ = fs::remove_dir_all(&folder);
    fs::create_dir_all(&folder).expect("a folder");
    folder
}

/// A shell command in a folder, with the program in its path: status and output.
fn shell(command: &str, folder: &Path) -> (i32, String) {
    let path = format!("{}:{}", Path::new(PROGRAM).parent().unwrap().display(), std::env::var("PATH").unwrap_or_default());
    let output = Command::new("sh").args(["-c", command]).current_dir(folder).env("PATH", path).output().expect("a shell");
    (output.status.code().expect("it ends by itself"), String::from_utf8(output.stdout).expect("text"))
}

fn names_in(folder: &Path) -> Vec<String> {
    let mut names: Vec<String> =
        fs::read_dir(folder).unwrap().map(|entry| entry.unwrap().file_name().into_string().unwrap()).collect();
    names.sort();
    names
}

// ---------------------------------------------------------------- help

/// Runs the commands of a text, lines of four blanks and a dollar sign, and compares what each writes with the lines after it.
#[track_caller]
fn examples_work(text: &str, folder: &Path) -> usize {
    let mut lines = text.lines().peekable();
    let mut count = 0;
    while let Some(line) = lines.next() {
        let Some(command) = line.strip_prefix("    $ ") else { continue };
        let mut want = String::new();
        while let Some(line) = lines.next_if(|line| line.starts_with("    ") && !line.starts_with("    $ ")) {
            want += &line[4..];
            want += "\n";
        }
        let (status, out) = shell(&format!("{command} 2>&1"), folder);
        let out: String = out.lines().map(|line| format!("{}\n", line.trim_end())).collect();
        assert_eq!(out, want, "{command}");
        assert_eq!(status != 0, want.starts_with("refused: ") || want.starts_with("smt-echo: "), "{command}");
        count += 1;
    }
    count
}

#[test]
fn help() {
    let overview = String::from_utf8(run(&["--help"], b"").done()).unwrap();
    let listed: Vec<&str> =
        overview.lines().filter_map(|line| line.strip_prefix("    ")).filter_map(|line| line.split(' ').next()).collect();
    assert_eq!(listed, SUBCOMMANDS);
    for words in [&["-h"][..], &["help"]] {
        assert_eq!(run(words, b"").done(), overview.as_bytes());
    }
    for told in ["`smt-echo SUBCOMMAND --help`", "`-h`", "`smt-echo help SUBCOMMAND`", "`smt-echo --version`"] {
        assert!(overview.lines().last().unwrap().contains(told), "{overview}");
    }
    for subcommand in SUBCOMMANDS {
        let help = String::from_utf8(run(&[subcommand, "--help"], b"").done()).unwrap();
        assert!(help.starts_with(&format!("smt-echo {subcommand} - ")), "{help}");
        for part in [&format!("\nusage: smt-echo {subcommand} ")[..], "\nExample:\n", "\nOptions:\n", "\nExit status:\n"] {
            assert!(help.contains(part), "{help}");
        }
        assert!(help.lines().all(|line| line.len() <= 140), "{help}");
        // The options that its usage has are listed, and then those of every subcommand.
        let between = |from: &str, to: &str| help.split_once(from).and_then(|(_, text)| text.split_once(to)).unwrap().0;
        let own = between("\nusage: ", "\n").split(['[', ']', '|']).map(str::trim).filter(|word| word.starts_with("--"));
        let options: Vec<&str> = own.chain(["-o FILE", "-h, --help", "--"]).collect();
        let listed = between("\nOptions:\n", "\n\n")
            .lines()
            .map(|line| line.strip_prefix("    ").and_then(|line| line.split_once("  ")).unwrap().0);
        assert_eq!(listed.collect::<Vec<&str>>(), options);
        assert!(examples_work(&help, &folder(&format!("help_{subcommand}"))) > 0, "{subcommand} has an example");
        assert_eq!(run(&[subcommand, "-o", "/nowhere/at/all", "-h", "missing"], b"").done(), help.as_bytes());
        assert_eq!(run(&["help", subcommand], b"").done(), help.as_bytes());
    }
    assert_eq!(run(&["--version"], b"").done(), b"smt-echo 0.1.0\n");
    for (subcommand, told) in [
        ("print", "where a declared name is such a name, the problem is refused with 11"),
        ("print", "A script with `let` is not read back, but refused with 13."),
        ("read", "refused with 13; so is a script with `let`, which `print --let` writes"),
        (
            "replay",
            "Where a rule's negation is asserted `holds` marks a counterexample; where invariants are asserted `fails` marks the fault.",
        ),
        ("replay", &format!("The problem has {MAX_TRACE_ROOTS} roots at most")),
    ] {
        let help = String::from_utf8(run(&[subcommand, "--help"], b"").done()).unwrap();
        assert!(help.replace('\n', " ").contains(told), "{help}");
    }
}

#[test]
fn the_manual() {
    let manual = include_str!("../../../docs/COMMAND.md");
    assert!(examples_work(manual, &folder("manual")) > 5);
    for subcommand in SUBCOMMANDS {
        assert!(manual.contains(&format!("`{subcommand}`")), "{subcommand}");
    }
    // The grammar has every kind.
    let (_, node) = manual.split_once("\n    node     = ").expect("the grammar");
    let (node, _) = node.split_once("\n    name     = ").expect("the grammar");
    for kind in (0..kind::COUNT).filter_map(kind::name) {
        assert!(node.contains(&format!("\"{}\"", kind.to_lowercase())), "{kind}");
    }
}

#[test]
fn command_lines_that_are_wrong() {
    for (args, what) in [
        (&[][..], "a subcommand is wanted"),
        (&["printt"], "there is no subcommand `printt`"),
        (&["-o", "x"], "there is no subcommand `-o`"),
        (&["print", "--hide"], "`print` has no option `--hide`"),
        (&["size", "--hidden"], "`size` has no option `--hidden`"),
        (&["print", "-x"], "`print` has no option `-x`"),
        (&["print", "a", "b"], "one file is wanted, and 2 are given"),
        (&["print", "-", "-"], "one file is wanted, and 2 are given"),
        (&["print", "-o"], "`-o` wants a value"),
        (&["print", "-o", "a", "-o", "b"], "`-o` is given twice"),
        (&["print", "--hidden", "--hidden"], "`--hidden` is given twice"),
        (&["print", "--hidden", "--let"], "`--hidden` does not go with `--let`"),
        (&["split", "--take"], "`--take` wants a value"),
        (&["split", "--take", "one"], "`--take` wants the number of a script"),
        (&["split", "--take", "-1"], "`--take` wants the number of a script"),
        (&["split", "--take", "1", "--into", "x"], "`--into` goes with neither `--take` nor `-o`"),
        (&["split", "-o", "y", "--into", "x"], "`--into` goes with neither `--take` nor `-o`"),
        (&["replay"], "`replay` wants a problem and a trace, and only one of them can be standard input"),
        (&["replay", "-", "-"], "`replay` wants a problem and a trace, and only one of them can be standard input"),
        (&["replay", "a", "b", "c"], "two files are wanted, and 3 are given"),
        (&["fewest", "--formulas"], "`fewest` has no option `--formulas`"),
        (&["release", "--take", "1"], "`release` has no option `--take`"),
        (&["release", "-", "-"], "`-`, standard input, can be read once"),
        (&["release", "-", "-o", "x", "-"], "`-`, standard input, can be read once"),
    ] {
        let line = run(args, M2.as_bytes()).not_done();
        assert!(line.starts_with(&format!("{what}; ")), "{args:?}: {line}");
    }
}

// ---------------------------------------------------------------- results

#[test]
fn printing() {
    assert_eq!(run(&["print"], M2.as_bytes()).done(), M2_SCRIPT.as_bytes());
    assert_eq!(run(&["print", "-"], b"problem").done(), M1_SCRIPT.as_bytes());
    let hidden = M2_SCRIPT.replace("101", "000");
    assert_eq!(run(&["print", "--hidden"], M2.as_bytes()).done(), hidden.as_bytes());
    assert_eq!(run(&["print", "--let"], M2.as_bytes()).done(), M2_SCRIPT.as_bytes());
    let shared = M2_SCRIPT.replace("(= (bvadd |x| #b00000101) |x|)", "(let ((|d2| (bvadd |x| #b00000101))) (= |d2| |d2|))");
    assert_eq!(run(&["print", "--let"], M2.replace("eq 2 0", "eq 2 2").as_bytes()).done(), shared.as_bytes());
    assert_eq!(run(&["size"], M2.as_bytes()).done(), b"length 103\nterms 5\n");
    assert_eq!(run(&["widths"], M2.as_bytes()).done(), b"0 8\n1 8\n2 8\n3 1\n");
    assert_eq!(run(&["widths"], b"problem\n").done(), b"");
    // Names and roots are none of its business.
    assert_eq!(run(&["widths"], b"problem\nvariable |@| 0 node 9\n0 var 8\nroot 7\n").done(), b"0 8\n");
}

#[test]
fn forms() {
    let shown = M2.replace("5 8", "#b00000101");
    let binary = run(&["show", "--binary"], M2.as_bytes()).done();
    assert_eq!(binary.len(), 261);
    assert_eq!(run(&["show"], &binary).done(), shown.as_bytes());
    assert_eq!(run(&["show"], M2.as_bytes()).done(), shown.as_bytes());
    assert_eq!(run(&["show", "--binary"], shown.as_bytes()).done(), binary);
    assert_eq!(run(&["show", "--binary"], &binary).done(), binary);
    assert_eq!(run(&["print"], &binary).done(), M2_SCRIPT.as_bytes());
    // A count of nodes whose lowest byte is a bracket is no script: 168 nodes are 2,856 bytes, 40 and 11 as bytes.
    let many = format!("problem\n{}", (0..168).map(|i| format!("{i} var 1\n")).collect::<String>());
    let binary = run(&["show", "--binary"], many.as_bytes()).done();
    assert_eq!(binary[..2], [b'(', 11]);
    assert_eq!(run(&["show"], &binary).done(), many.as_bytes());
    // A refused problem is shown as it is.
    let refused = "problem\nvariable || 0 node 7\narray |let| 0 70000\n0 record 77 1 2 3 4\n1 not 0\nroot 9\nnodes 1\nbits 2 3\n";
    assert_eq!(run(&["show"], refused.as_bytes()).done(), refused.as_bytes());
    let binary = run(&["show", "--binary"], refused.as_bytes()).done();
    assert_eq!(run(&["show"], &binary).done(), refused.as_bytes());
}

/// Every refusal, with what to look at.
#[test]
fn refusals() {
    let nothing = folder("refusals").join("nothing.csv").display().to_string();
    fs::write(&nothing, "").unwrap();
    let m2 = |from: &str, to: &str| M2.replace(from, to);
    let rich = |from: &str, to: &str| {
        let text = "problem\nvariable |i| 32 node 0\nvariable |v| 8 node 1\narray |m| 32 8\nfunction |f| 8\n0 var 32\n1 var 8\n\
                    2 select 0 0 : 0 1\n3 call 0 8 : 0 1\n4 eq 2 3\nroot 4\n";
        assert!(from.is_empty() || text.contains(from), "{from}");
        if from.is_empty() { text.to_string() } else { text.replace(from, to) }
    };
    assert!(run(&["print"], rich("", "").as_bytes()).done().starts_with(b"(set-logic QF_AUFBV)\n"));
    let more = |lines: &str| M2.to_string() + lines;
    let mut seen = std::collections::BTreeSet::new();
    for (text, number, look) in [
        // 1: columns, a node, what is not there
        (
            more("name_start 1\n"),
            1,
            "the columns of the variables have different lengths: name_start 2, name_len 1, var_node 1, var_width 1",
        ),
        (
            rich("array |m| 32 8\n", "index_width 32\n"),
            1,
            "the columns of the arrays have different lengths: aname_start 0, aname_len 0, index_width 1, value_width 0",
        ),
        (m2("add 0 1", "add 0 2"), 1, "node 2, `add 0 2`, is not well formed: node 2 does not stand before it"),
        (
            m2("5 8", "5 9"),
            1,
            "node 2, `add 0 1`, is not well formed: node 0 is 8 wide, node 1 is 9 wide, and one width is wanted",
        ),
        (
            m2("const 5 8", "const @1 8"),
            1,
            "node 1, `const @1 8`, is not well formed: it has 8 bits from place 1 on, and there are 0 bits",
        ),
        (
            rich("call 0 8 : 0 1", "call 0 8 @1 2"),
            1,
            "node 3, `call 0 8 @1 2`, is not well formed: it has 2 side entries from place 1 on, and there are 2",
        ),
        (
            rich("32 8", "24 8"),
            1,
            "node 2, `select 0 0 @0 1`, is not well formed: array 0 has indices of 24 bits and values of 8; node 0 is 32 wide, node 1 is 8 wide",
        ),
        (m2("root 3", "root 4"), 1, "root 0: there is no node 4; there are 4 nodes"),
        (rich("array |m| 32 8\n", ""), 1, "below node 4, `eq 2 3`: node 2, `select 0 0 @0 1`, has array 0, and there are 0"),
        (rich("function |f| 8\n", ""), 1, "below node 4, `eq 2 3`: node 3, `call 0 8 @2 2`, has function 0, and there are 0"),
        // 2
        (m2("|x|", "||"), 2, "variable 0, ||, has an empty name"),
        (m2("|x|", "|bvadd|"), 2, "variable 0, |bvadd|, has a reserved word for its name"),
        (m2("|x|", "|int_to_bv|"), 2, "variable 0, |int_to_bv|, has a reserved word for its name"),
        (m2("|x|", "|@x|"), 2, "variable 0, |@x|, has a name that begins with `@` or `.`"),
        (m2("|x|", "|a\\x7fb|"), 2, "variable 0, |a\\x7fb|, has the byte 127 in its name, which no name may have"),
        (
            m2("variable |x| 8 node 0", "name_start 1\nname_len 1\nvar_node 0\nvar_width 8"),
            2,
            "variable 0: its name has 1 bytes from place 1 on, and there are 0",
        ),
        (rich("|f|", "|v|"), 2, "function 0, |v|, has the name of variable 1, |v|"),
        // 3
        (
            m2("root 3", "root 0"),
            3,
            "root 0: node 0, `var 8`, is a bit-vector, and a Bool is wanted; a comparison makes one of it",
        ),
        (
            "problem\nvariable |b| 1 node 0\n0 var 1\n1 eq 0 0\n2 bv_not 1\n3 eq 2 0\nroot 3\n".into(),
            3,
            "below node 2, `bv_not 1`: node 1, `eq 0 0`, is a Bool, and a bit-vector is wanted; `ite` makes one of it",
        ),
        (
            "problem\nvariable |b| 1 node 0\n0 var 1\n1 ite 0 0 0\n2 eq 1 0\nroot 2\n".into(),
            3,
            "below node 1, `ite 0 0 0`: node 0, `var 1`, is a bit-vector, and a Bool is wanted; a comparison makes one of it",
        ),
        // 4
        (m2("|x| 8", "|x| 0"), 4, "variable 0, |x|, has width 0"),
        (m2("|x| 8", "|x| 9"), 4, "below node 2, `add 0 1`: node 0, `var 8`, has width 8, and variable 0, |x|, has 9"),
        (
            m2("variable |x| 8 node 0\n", ""),
            4,
            "below node 2, `add 0 1`: node 0, `var 8`, has no entry in the table of variables",
        ),
        // 5
        (
            m2("add 0 1", "rotl 0 0"),
            5,
            "below node 3, `eq 2 0`: node 2, `rotl 0 0`, is by node 0, `var 8`, which is no constant; write it as shifts",
        ),
        (
            "problem\n0 const 0 65537\n1 rotr 0 0\n2 eq 1 0\nroot 2\n".into(),
            5,
            "below node 2, `eq 1 0`: node 1, `rotr 0 0`, is 65537 wide, and a rotation has from 1 to 65536 bits",
        ),
        // 6
        (m2("eq 2 0", "eq 2 2"), 6, "node 2, `add 0 1`, is used 2 times, by node 3, node 3; `smt-echo print --let` prints it"),
        (more("root 3\n"), 6, "node 3, `eq 2 0`, is used 2 times, by root 0, root 1; `smt-echo print --let` prints it"),
        (
            more(&"root 3\n".repeat(9)),
            6,
            "node 3, `eq 2 0`, is used 10 times, by root 0, root 1, root 2, root 3, ..; `smt-echo print --let` prints it",
        ),
        // 7
        (more("function |f| 8\n"), 7, "function 0, |f|, is called by no node; leave it out"),
        (rich("|f| 8", "|f| 0"), 7, "function 0, |f|, has width 0"),
        (rich("|f| 8", "|f| 9"), 7, "below node 4, `eq 2 3`: node 3, `call 0 8 @2 2`, has width 8, and function 0, |f|, has 9"),
        (
            rich("4 eq 2 3\nroot 4", "4 call 0 8 : 1\n5 eq 3 4\nroot 5"),
            7,
            "below node 5, `eq 3 4`: node 4, `call 0 8 @4 1`, has arguments of widths [8], and the first call, node 3, [32, 8]; declare \
             a function for each",
        ),
        (
            "problem\nfunction |f| 8\n0 call 0 8 @1 0\n".into(),
            7,
            "node 0, `call 0 8 @1 0`, the first call of function 0: place 1 is past the 0 side entries",
        ),
        // 8
        (more("nodes 1\n"), 8, "nodes has 69 bytes: 4 records of 17 and 1 left over"),
        (more("4 record 39 0 0 0 0\n"), 8, "node 4 has kind 39, and the last kind is 38"),
        (more("4 record 29 3 0 5 0\n"), 8, "node 4, of kind `not` with 1 operands: operand 3 is 5, and should be 0"),
        (more("bits 0 1 2\n"), 8, "element 10 of bits is 2, and neither 0 nor 1"),
        // 9
        (more(&"root 3\n".repeat(256)), 9, "roots has 257 elements, and its limit is 256; `bool_and` makes one of two"),
        (
            more("1 var 1\n").replace("1 var 1", &format!("names{}", " 0".repeat(16_384))),
            9,
            "names has 16385 elements, and its limit is 16384",
        ),
        (
            format!("problem\n{}", (0..2_049).map(|i| format!("{i} var 1\n")).collect::<String>()),
            9,
            "nodes has 34833 elements, and its limit is 34816; with `smt-echo print --let` a term is one node, however often it is used",
        ),
        (
            format!("problem\nbits{}\n", " 0".repeat(131_073)),
            9,
            "bits has 131073 elements, and its limit is 131072; equal constants may be one node",
        ),
        (format!("problem\nside{}\n", " 0".repeat(8_193)), 9, "side has 8193 elements, and its limit is 8192"),
        (format!("problem\nvalue_width{}\n", " 0".repeat(513)), 9, "value_width has 513 elements, and its limit is 512"),
        // 12
        (more("array |m| 0 8\n"), 12, "element 0 of index_width is 0, and should be from 1 to 65536"),
        (more("array |m| 32 8\narray |k| 32 65537\n"), 12, "element 1 of value_width is 65537, and should be from 1 to 65536"),
    ] {
        for args in [&["print"][..], &["print", "--hidden"], &["size"], &["formulas"], &["replay", "-", &nothing]] {
            assert_eq!(run(args, text.as_bytes()).refused(), (number, look.to_string()), "{args:?}: {text}");
        }
        // The fewest roots are told of a refused problem too.
        let told = run(&["fewest"], text.as_bytes()).done();
        assert!(told.starts_with(format!("number {number}\nroots").as_bytes()), "{text}");
        seen.insert(number);
    }
    // With `let`: 11 at the place of 6, and all others as before.
    let clash = m2("eq 2 0", "eq 2 2").replace("|x|", "|d2|");
    let look =
        "variable 0, |d2|, has the name under which a term is bound: node 2, `add 0 1`, is used 2 times, by node 3, node 3";
    assert_eq!(run(&["print", "--let"], clash.as_bytes()).refused(), (11, look.into()));
    let root = m2("eq 2 0", "eq 2 2").replace("root 3", "root 2");
    let look = "root 0: node 2, `add 0 1`, is a bit-vector, and a Bool is wanted; a comparison makes one of it";
    assert_eq!(run(&["print", "--let"], root.as_bytes()).refused(), (3, look.into()));
    // A bound term is refused by itself before a use of the other sort is.
    let bound = m2("add 0 1", "rotl 0 0").replace("root 3", "4 eq 2 0\nroot 2");
    let look = "root 0: node 2, `rotl 0 0`, is by node 0, `var 8`, which is no constant; write it as shifts";
    assert_eq!(run(&["print", "--let"], bound.as_bytes()).refused(), (5, look.into()));
    seen.insert(11);
    // 10 is never met: the buffer is as long as the script.
    assert!(Refusal::ALL.iter().all(|refusal| *refusal == Refusal::Room || seen.contains(&refusal.number())));
    let first = run(&["size"], m2("eq 2 0", "eq 2 2").as_bytes()).err;
    assert!(first.starts_with("refused: 6 Shared: a node that is no variable and no constant is used more than once"), "{first}");
}

#[test]
fn refusals_of_the_width_pass() {
    for (lines, number, look) in [
        ("0 var 8\n1 not 0\n", 1, "node 1, `not 0`, is not well formed: node 0 is 8 wide, and a Bool is 1 wide"),
        (
            "0 var 8\n1 eq 0 0\n2 bool_or 1 0\n",
            1,
            "node 2, `bool_or 1 0`, is not well formed: node 1 is 1 wide, node 0 is 8 wide, and a Bool is 1 wide",
        ),
        (
            "0 var 8\n1 var 9\n2 ite 0 1 1\n",
            1,
            "node 2, `ite 0 1 1`, is not well formed: node 0 is 8 wide, node 1 is 9 wide, and a Bool, which is 1 wide, and two of one width \
             are wanted",
        ),
        (
            "0 var 8\n1 extract 0 7 0\n",
            1,
            "node 1, `extract 0 7 0`, is not well formed: node 0 is 8 wide, and its highest bit and its lowest are wanted, in this order and \
             counted from 0",
        ),
        (
            "0 var 8\n1 var 9\n2 ult 0 1\n",
            1,
            "node 2, `ult 0 1`, is not well formed: node 0 is 8 wide, node 1 is 9 wide, and one width is wanted",
        ),
        ("0 var 8\n1 var 0\n", 1, "node 1, `var 0`, is not well formed: its width is 0"),
        ("0 var 8\n1 call 0 0\n", 1, "node 1, `call 0 0 @0 0`, is not well formed: its width is 0"),
        ("0 var 8\n1 call 0 0 : 0\n", 1, "node 1, `call 0 0 @0 1`, is not well formed: its width is 0"),
        ("0 var 32\nindex_width 32\n", 1, "index_width has 1 elements, and value_width 0"),
        ("bits 3\n", 8, "element 0 of bits is 3, and neither 0 nor 1"),
        ("array || 32 0\n", 12, "element 0 of value_width is 0, and should be from 1 to 65536"),
    ] {
        assert_eq!(run(&["widths"], format!("problem\n{lines}").as_bytes()).refused(), (number, look.into()), "{lines}");
    }
    // Widths of 2^64 and more, in nodes over one of 2^64 - 2^32 bits and one of 2^64 - 1.
    let mut wide = String::from("problem\n0 var 4294967295\n");
    (1..33).for_each(|i| wide += &format!("{i} concat {0} {0}\n", i - 1));
    wide += "33 zero_ext 32 4294967295\n";
    assert!(run(&["widths"], wide.as_bytes()).done().ends_with(b"\n32 18446744069414584320\n33 18446744073709551615\n"));
    let (most, many) = ("node 33 is 18446744073709551615 wide", "node 32 is 18446744069414584320 wide");
    for (node, widths) in [
        ("concat 32 32", many.to_string()),
        ("concat 32 33", format!("{many}, {most}")),
        ("zero_ext 33 1", most.to_string()),
        ("sign_ext 33 1", most.to_string()),
    ] {
        let look = format!("node 34, `{node}`, is not well formed: {widths}, and the result has 2^64 bits or more");
        assert_eq!(run(&["widths"], format!("{wide}34 {node}\n").as_bytes()).refused(), (1, look));
    }
    let over = format!("problem\n{}roots{}\n", "name_start 1\n", " 0".repeat(300));
    assert_eq!(run(&["widths"], over.as_bytes()).done(), b"");
    let over = format!("problem\nside{}\n", " 0".repeat(8_193));
    assert_eq!(run(&["widths"], over.as_bytes()).refused(), (9, "side has 8193 elements, and its limit is 8192".into()));
}

#[test]
fn records() {
    let old = m2_nodes().concat();
    let new = run(&["shorten"], &old).done();
    assert_eq!(new.len(), 5 + 9 + 9 + 9);
    assert_eq!(run(&["lengthen"], &new).done(), old);
    assert_eq!(run(&["shorten"], b"").done(), b"");
    assert_eq!(run(&["lengthen"], b"").done(), b"");
    let most = node(kind::VAR, [1, 0, 0, 0]).repeat(MAX_NODES);
    let shorter = run(&["shorten"], &most).done();
    assert_eq!(run(&["lengthen"], &shorter).done(), most);

    assert_eq!(run(&["shorten"], &old[1..]).refused(), (8, "nodes has 67 bytes: 3 records of 17 and 16 left over".into()));
    assert_eq!(run(&["shorten"], &[99; 17]).refused(), (8, "node 0 has kind 99, and the last kind is 38".into()));
    let over = [&most[..], &[0]].concat();
    assert_eq!(run(&["shorten"], &over).refused(), (9, "there are 34817 bytes, and the limit is 34816".into()));
    let over = [&shorter[..], &[200]].concat();
    assert_eq!(run(&["lengthen"], &over).refused(), (9, "byte 10240: 2048 records end there, and 1 bytes follow".into()));
    let cut = &new[..new.len() - 1];
    assert_eq!(run(&["lengthen"], cut).refused(), (16, "byte 23: record 3, of kind `eq`, has 9 bytes, and 8 are there".into()));
    let unknown = [&new[..], &[39]].concat();
    assert_eq!(run(&["lengthen"], &unknown).refused(), (16, "byte 32: record 4 has kind 39, and the last kind is 38".into()));
    let long = "standard input: is longer than 1048576 bytes, the most that are read";
    assert_eq!(run(&["lengthen"], &vec![0; (1 << 20) + 1]).not_done(), long);
}

#[test]
fn formulas() {
    assert_eq!(run(&["formulas"], M2.as_bytes()).done(), b"|x| + #b00000101 == |x|\n");
    assert_eq!(run(&["formulas"], b"problem\n").done(), b"");
    // Names go out as they are, in any alphabet and any encoding.
    let named = [&b"problem\nvariable |\xff \xe3\x82\xac| 8 node 0\n0 var 8\n1 eq 0 0\nroot 1\n"[..]].concat();
    assert_eq!(run(&["formulas"], &named).done(), b"|\xff \xe3\x82\xac| == |\xff \xe3\x82\xac|\n");
    // Lines that are longer than the script: a comma for each argument.
    let mut text = String::from("problem\nvariable |x| 8 node 0\nfunction |f| 8\n0 var 8\n");
    (1..2_040).for_each(|i| text += &format!("{i} call 0 8 : {} 0 0 0\n", i - 1));
    text += "2040 eq 2039 0\nroot 2040\n";
    let (script, lines) = (run(&["print"], text.as_bytes()).done(), run(&["formulas"], text.as_bytes()).done());
    assert!(lines.len() > script.len() && lines.ends_with(b", |x|, |x|, |x|) == |x|\n"), "{} and {}", script.len(), lines.len());
}

#[test]
fn the_fewest_roots() {
    let fewest = |text: &str| String::from_utf8(run(&["fewest"], text.as_bytes()).done()).unwrap();
    assert_eq!(fewest(M2), "number 0\nroots\n");
    assert_eq!(fewest(&M2.replace("root 3", "root 3\nroot 1\nroot 9")), "number 3\nroots 1\n");
    assert_eq!(fewest(&M2.replace("root 3", "root 1\nroot 3\nroot 9\nroot 3")), "number 6\nroots 1 3\n");
    assert_eq!(fewest(&M2.replace("|x|", "|let|")), "number 2\nroots\n");
    assert_eq!(fewest("problem\nbits 2\n"), "number 8\nroots\n");

    let show = |text: &str| run(&["fewest", "--show"], text.as_bytes());
    let few = show(&M2.replace("root 3", "root 1\nroot 3\nroot 9\nroot 3")).done();
    assert_eq!(few, M2.replace("5 8", "#b00000101").replace("root 3", "root 3\nroot 3").as_bytes());
    assert_eq!(run(&["print"], &few).refused().0, 6);
    assert_eq!(run(&["print"], &show(&M2.replace("|x|", "|let|")).done()).refused().0, 2);
    assert_eq!(show(M2).not_done(), "standard input: has the number 0, and roots are told for 1 to 7");
    assert_eq!(show("problem\nbits 2\n").not_done(), "standard input: has the number 8, and roots are told for 1 to 7");
}

/// base + size <= limit, size != 0, base & 15 = 0: the README's table.
const REGION: &str = "problem\nvariable |base| 16 node 0\nvariable |size| 16 node 1\nvariable |limit| 16 node 2\n0 var 16\n1 var 16\n\
                      2 var 16\n3 const 0 16\n4 const 15 16\n5 add 0 1\n6 ule 5 2\n7 ne 1 3\n8 and 0 4\n9 eq 8 3\n\
                      root 6\nroot 7\nroot 9\n";

#[test]
fn replaying() {
    let folder = folder("replaying");
    let path = |name: &str| folder.join(name).display().to_string();
    fs::write(path("region"), REGION).unwrap();
    let log = "base,size,limit\n0x1000,0x200,0x2000\n4096,0,8192\n0xfff0,0x20,0x10\n0x1008,0x2000,0x2000\n";
    let told = "0 holds\n1 fails 1\n2 holds\n3 fails 0 2\n";
    assert_eq!(run(&["replay", &path("region")], log.as_bytes()).done(), told.as_bytes());
    // Either file may be standard input, and both may be files.
    fs::write(path("log"), log).unwrap();
    assert_eq!(run(&["replay", "-", &path("log")], REGION.as_bytes()).done(), told.as_bytes());
    assert_eq!(run(&["replay", &path("region"), &path("log"), "-o", &path("told")], b"").done(), b"");
    assert_eq!(fs::read_to_string(path("told")).unwrap(), told);
    // With formulas.
    let (zero, fifteen) = ("#b0000000000000000", "#b0000000000001111");
    let lines = format!(
        "0 holds\n1 fails 1\n    1: |size| != {zero}\n2 holds\n3 fails 0 2\n    0: |base| + |size| <= |limit|\n    \
         2: (|base| band {fifteen}) == {zero}\n"
    );
    assert_eq!(run(&["replay", "--formulas", &path("region"), &path("log")], b"").done(), lines.as_bytes());
    // Other spellings of the same rows: order, quotes, bars, blanks, line ends, a mark in front, empty lines at the end.
    for other in [
        "limit,size,base\n0x2000,0x200,0x1000\n8192,0,4096\n0X10,0x20,0xFFF0\n0x2000,0x2000,0x1008",
        "\u{feff}|size| , \"base\",\t\"|limit|\"\r\n 512 ,4096,8192\r\n0,\"4096\" ,8192\r\n32,65520,16\r\n8192,4104,8192\r\n\r\n\r\n",
        "base,size,limit\n#x1000,#b1000000000,#x2000\n4096,#b0,8192\n#xfff0,0x00000000000000000020,016\n4104,8192,8192\n \n",
    ] {
        assert_eq!(run(&["replay", &path("region")], other.as_bytes()).done(), told.as_bytes(), "{other}");
    }
    // No rows; no variables, which is one row; no roots; names in other alphabets, and with a comma and a quote.
    assert_eq!(run(&["replay", &path("region")], b"base,size,limit").done(), b"");
    fs::write(path("nothing"), "").unwrap();
    let constant = "problem\n0 const 5 8\n1 ult 0 0\n2 ule 0 0\nroot 1\nroot 2\n";
    assert_eq!(run(&["replay", "-", &path("nothing")], constant.as_bytes()).done(), b"0 fails 0\n");
    assert_eq!(run(&["replay", "-", &path("nothing")], b"problem\n").done(), b"0 holds\n");
    fs::write(path("odd"), "problem\nvariable |Größe, \"a\"| 64 node 0\n0 var 64\n1 eq 0 0\n2 ult 0 0\nroot 1\nroot 2\n")
        .unwrap();
    let rows = "\"Größe, \"\"a\"\"\"\n18446744073709551615\n0xffffffffffffffff\n";
    let fails = "0 fails 1\n    1: |Größe, \"a\"| < |Größe, \"a\"|\n1 fails 1\n    1: |Größe, \"a\"| < |Größe, \"a\"|\n";
    assert_eq!(run(&["replay", "--formulas", &path("odd")], rows.as_bytes()).done(), fails.as_bytes());
    // 64 roots, all of which fail, and many rows.
    let mut most = String::from("problem\nvariable |x| 8 node 0\n0 var 8\n");
    (1..65).for_each(|i| most += &format!("{i} ult 0 0\nroot {i}\n"));
    fs::write(path("most"), &most).unwrap();
    let all: String = (0..64).map(|root| format!(" {root}")).collect();
    assert_eq!(run(&["replay", &path("most")], b"x\n1\n").done(), format!("0 fails{all}\n").as_bytes());
    let many = format!("x\n{}", "7\n".repeat(100_000));
    let told = run(&["replay", &path("most")], many.as_bytes()).done();
    assert!(told.ends_with(format!("\n99999 fails{all}\n").as_bytes()));
}

/// What a trace is refused with by itself: 9 for its roots, 14, and 15 with the line and column.
#[test]
fn refused_traces() {
    let folder = folder("refused_traces");
    let path = |name: &str| folder.join(name).display().to_string();
    fs::write(path("region"), REGION).unwrap();
    fs::write(path("csv"), "x\n1\n").unwrap();
    let mut roots = String::from("problem\nvariable |x| 8 node 0\n0 var 8\n");
    (1..66).for_each(|i| roots += &format!("{i} ult 0 0\nroot {i}\n"));
    let head = "problem\nvariable |x| 8 node 0\n0 var 8\n";
    let select = head.replace("variable", "array |m| 8 8\nvariable") + "1 select 0 0\n2 eq 0 0\n3 eq 1 0\nroot 2\nroot 3\n";
    for (text, number, look) in [
        (roots, 9, "there are 65 roots, and a trace is replayed for 64 at most; `bool_and` makes one of two"),
        (
            format!("{head}roots{}\n", " 0".repeat(257)),
            9,
            "roots has 257 elements, and its limit is 256; `bool_and` makes one of two",
        ),
        (
            select,
            14,
            "below root 1: node 1, `select 0 0 @0 0`, is a select, which has no value in a trace; leave the root out to replay the others",
        ),
        (
            head.replace("variable", "function |f| 8\nvariable") + "1 call 0 8 : 0\n2 eq 0 1\nroot 2\n",
            14,
            "below root 0: node 1, `call 0 8 @0 1`, is a call, which has no value in a trace; leave the root out to replay the others",
        ),
        (
            head.to_string() + "1 zero_ext 0 57\n2 rotl 1 4\n3 extract 7 0 2\n4 const 1 65\n5 eq 3 0\nroot 5\n",
            1,
            "node 2, `rotl 1 4`, is not well formed: node 4 does not stand before it",
        ),
        (
            head.to_string() + "1 zero_ext 0 57\n2 extract 7 0 1\n3 eq 2 0\nroot 3\n",
            14,
            "below root 0: node 1, `zero_ext 0 57`, is 65 wide, and 64 bits are the most; leave the root out to replay the others",
        ),
    ] {
        assert_eq!(run(&["replay", "-", &path("csv")], text.as_bytes()).refused(), (number, look.to_string()), "{text}");
    }
    // A rotation's amount is no term; a wide variable that no root reaches takes every value.
    let wide = head.to_string() + "1 const 9 8\n2 rotl 0 1\n3 eq 2 0\nroot 3\n4 var 70\nvariable |w| 70 node 4\n";
    fs::write(path("wide"), &wide).unwrap();
    assert_eq!(run(&["replay", &path("wide")], b"w,x\n18446744073709551615,255\n").done(), b"0 holds\n");
    for (csv, line, column, what) in [
        ("base,size,limit\n1,2,65536\n", 2, 5, "65536 does not fit 16 bits, the width of |limit|"),
        ("limit,base,size\n1,2,3\n\"0xffff\", 0x10000 ,70000\n", 3, 11, "0x10000 does not fit 16 bits, the width of |base|"),
    ] {
        let look = format!("standard input:{line}:{column}: {what}");
        assert_eq!(run(&["replay", &path("region")], csv.as_bytes()).refused(), (15, look), "{csv}");
    }
}

/// What is no trace: status 2, with the line and column.
#[test]
fn malformed_traces() {
    let folder = folder("malformed_traces");
    let path = |name: &str| folder.join(name).display().to_string();
    fs::write(path("region"), REGION).unwrap();
    for (csv, line, column, what) in [
        ("", 1, 1, "a column for |base| is wanted, and the line ends"),
        ("\n1,2,3\n", 1, 1, "a column for |base| is wanted, and the line ends"),
        ("base,limit\n", 1, 11, "a column for |size| is wanted, and the line ends"),
        ("time,base,size,limit\n", 1, 1, "there is no variable |time|; leave the column out"),
        ("base, size,limit,\n", 1, 18, "there is no variable ||; leave the column out"),
        ("base, size,limit, Base\n", 1, 19, "there is no variable |Base|; leave the column out"),
        ("base,size,base\n", 1, 11, "|base| stands there twice"),
        ("base,\"size,limit\n", 1, 6, "the field has no quote at its end"),
        ("base,\"size\"s,limit\n", 1, 12, "a comma is wanted after the quote"),
        ("base,size,limit\n1,2\n", 2, 4, "value 3 of 3 is wanted, and the line ends"),
        ("base,size,limit\n1,2,3\n1,2,3,4\n", 3, 7, "the end of the line is wanted, and `4` is there"),
        ("base,size,limit\n1,2,3\n\n1,2,3\n", 3, 1, "a row is wanted, and the line is empty"),
        ("base,size,limit\n1,,3\n", 2, 3, "a value is wanted, and `` is there"),
        (
            "base,size,limit\n1,-2,3\n",
            2,
            3,
            "a value is wanted, and `-2` is there; a negative value is written in two's complement, -2 as 0xfe for 8 bits",
        ),
        ("base,size,limit\n1,-,3\n", 2, 3, "a value is wanted, and `-` is there"),
        ("base,size,limit\n1,-n,3\n", 2, 3, "a value is wanted, and `-n` is there"),
        ("base,size,limit\n1,+2,3\n", 2, 3, "a value is wanted, and `+2` is there"),
        ("base,size,limit\n1,2.5,3\n", 2, 3, "a value is wanted, and `2.5` is there"),
        ("base,size,limit\n1,0x,3\n", 2, 3, "a value is wanted, and `0x` is there"),
        ("base,size,limit\n1,1f,3\n", 2, 3, "a value is wanted, and `1f` is there"),
        ("base,size,limit\n1,#b12,3\n", 2, 3, "a value is wanted, and `#b12` is there"),
        ("base,size,limit\n1,2,18446744073709551616\n", 2, 5, "a value is wanted, and the number there does not fit 64 bits"),
    ] {
        let line = format!("standard input:{line}:{column}: {what}");
        assert_eq!(run(&["replay", &path("region")], csv.as_bytes()).not_done(), line, "{csv}");
    }
    // A problem without variables has a trace without columns.
    fs::write(path("constant"), "problem\n0 const 5 8\n1 ult 0 0\nroot 1\n").unwrap();
    let line = "standard input:1:1: there is no variable |x|; leave the column out";
    assert_eq!(run(&["replay", &path("constant")], b"x\n1\n").not_done(), line);
    let line = "standard input:2:1: the end of the line is wanted, and `1` is there";
    assert_eq!(run(&["replay", &path("constant")], b"\n1\n").not_done(), line);
    // Traces that are missing, binary, huge, a folder.
    fs::write(path("binary"), [0xff; 4_000]).unwrap();
    fs::File::create(path("huge")).unwrap().set_len(1 << 40).unwrap();
    let binary = run(&["replay", &path("region"), &path("binary")], b"").not_done();
    assert!(binary.starts_with(&format!("{}:1:1: there is no variable |\u{fffd}", path("binary"))), "{binary}");
    for (name, why) in [
        ("missing", "cannot be read: No such file or directory (os error 2)"),
        ("", "cannot be read: Is a directory (os error 21)"),
        ("huge", "is longer than 268435456 bytes, the most that are read"),
    ] {
        assert_eq!(run(&["replay", &path("region"), &path(name)], b"").not_done(), format!("{}: {why}", path(name)));
    }
}

#[test]
fn splitting() {
    let folder = folder("splitting");
    let file = [M2_SCRIPT, M1_SCRIPT, M2_SCRIPT].concat();
    assert_eq!(run(&["split"], file.as_bytes()).done(), b"0 0 103\n1 103 30\n2 133 103\n");
    assert_eq!(run(&["split", "--take", "1"], file.as_bytes()).done(), M1_SCRIPT.as_bytes());
    assert_eq!(run(&["split"], b"").done(), b"");
    let none = run(&["split", "--take", "3"], file.as_bytes()).not_done();
    assert_eq!(none, "standard input: there is no script 3; there are 3");

    let into = folder.join("scripts");
    let args = ["split".as_ref(), "--into".as_ref(), into.as_os_str()];
    assert_eq!(run(&args, file.as_bytes()).done(), b"");
    assert_eq!(names_in(&into), ["0.smt2", "1.smt2", "2.smt2"]);
    assert_eq!(fs::read(into.join("2.smt2")).unwrap(), M2_SCRIPT.as_bytes());
    assert!(run(&args, file.as_bytes()).not_done().ends_with("it is there already"));

    // A rest: nothing is written.
    let cut = &file.as_bytes()[..file.len() - 1];
    let rest = "standard input: the last 102 bytes, from byte 133 on, are no script: 2 scripts stand before them";
    let other = folder.join("other");
    for args in [&["split".as_ref()][..], &["split".as_ref(), "--into".as_ref(), other.as_os_str()]] {
        assert_eq!(run(args, cut).not_done(), rest);
    }
    assert_eq!(names_in(&folder), ["scripts"]);
}

// ---------------------------------------------------------------- inputs of all sorts

#[test]
fn files() {
    let folder = folder("files");
    let path = |name: &str| folder.join(name).display().to_string();
    fs::write(path("m2"), M2).unwrap();
    fs::write(path("-m2"), M2).unwrap();
    fs::write(path("empty"), "").unwrap();
    fs::write(path("script"), M2_SCRIPT).unwrap();
    fs::write(path("text"), "Hello, world!\n").unwrap();
    fs::write(path("binary"), [0xff; 4_000]).unwrap();
    fs::write(path("short"), [0, 0, 0]).unwrap();
    fs::write(path("zeros"), [0; 145]).unwrap();
    fs::write(path("slip"), M2.replace("add", "plus")).unwrap();
    fs::File::create(path("huge")).unwrap().set_len(1 << 40).unwrap(); // a hole, which takes no room

    for name in ["m2", "script"] {
        assert_eq!(run(&["print", &path(name)], b"").done(), M2_SCRIPT.as_bytes());
    }
    assert_eq!(shell("smt-echo size -- -m2", &folder), (0, "length 103\nterms 5\n".into()));
    let none = |first: &str| {
        format!(
            "is no problem: its first line is `{first}`, and it begins neither with the line `problem`, nor with a count of the binary \
             layout, nor with `(set-logic `"
        )
    };
    fs::write(path("lines"), "x\n1\n").unwrap();
    fs::write(path("comment"), format!("; M2\n{M2}")).unwrap();
    let (text, lines, comment) = (none("Hello, world!"), none("x"), none("; M2"));
    let binary = none(&("\u{fffd}".repeat(60) + " .."));
    for (name, why) in [
        ("missing", "cannot be read: No such file or directory (os error 2)"),
        ("", "cannot be read: Is a directory (os error 21)"),
        ("m2/x", "cannot be read: Not a directory (os error 20)"),
        ("empty", "is empty, and no problem: the empty problem is the line `problem`"),
        ("text", &text),
        ("lines", &lines),
        ("comment", &comment),
        ("binary", &binary),
        ("short", "is no problem in the binary layout: ends early in input 1, nodes"),
        ("zeros", "is no problem in the binary layout: bytes are left over after input 18, func_width"),
        ("huge", "is longer than 16777216 bytes, the most that are read"),
    ] {
        for subcommand in ["print", "size", "widths", "show", "formulas", "fewest", "replay"] {
            assert_eq!(run(&[subcommand, &path(name)], b"").not_done(), format!("{}: {why}", path(name)));
        }
    }
    assert_eq!(run(&["print", &path("slip")], b"").not_done(), path("slip") + ":5:3: a kind is wanted, and `plus` is there");
    assert_eq!(
        run(&["print"], b"problem\nx").not_done(),
        "standard input:2:1: a declaration, a node, a root or the name of an input is wanted, and `x` is there"
    );
    let more = "is longer than 1073741824 bytes, the most that are read";
    for subcommand in ["split", "read", "release"] {
        assert_eq!(run(&[subcommand, &path("huge")], b"").not_done(), format!("{}: {more}", path("huge")));
    }

    // A script that is longer than a problem may be is read by `read`.
    let mut long = String::from("problem\n");
    long += &format!("0 const #b{}\n", "01".repeat(65_536));
    (1..71).for_each(|i| long += &format!("{i} eq 0 0\nroot {i}\n"));
    assert_eq!(run(&["print", "-o", &path("long")], long.as_bytes()).done(), b"");
    let size = run(&["size"], long.as_bytes()).done();
    let why = "is longer than 16777216 bytes, the most that are read of a problem; `smt-echo read` reads a longer script";
    assert_eq!(run(&["size", &path("long")], b"").not_done(), format!("{}: {why}", path("long")));
    assert_eq!(shell("smt-echo size < long 2>&1", &folder), (2, format!("smt-echo: standard input: {why}\n")));
    assert_eq!(shell("smt-echo read long | smt-echo size", &folder), (0, String::from_utf8(size).unwrap()));

    // The mark in front of UTF-8 is passed over, in the text form. Of a long word the start is told.
    assert_eq!(run(&["print"], format!("\u{feff}{M2}").as_bytes()).done(), M2_SCRIPT.as_bytes());
    assert_eq!(
        run(&["print"], format!("\u{feff}problem {}\n", "z".repeat(1_000_000)).as_bytes()).not_done(),
        format!("standard input:1:9: the end of the line is wanted, and `{} ..` is there", "z".repeat(60))
    );

    // A name that is no text.
    use std::os::unix::ffi::OsStrExt;
    let odd = folder.join(OsStr::from_bytes(b"odd\xff"));
    fs::write(&odd, M2).unwrap();
    assert_eq!(run(&["print".as_ref(), odd.as_os_str()], b"").done(), M2_SCRIPT.as_bytes());
}

#[test]
fn pipes() {
    let folder = folder("pipes");
    fs::write(folder.join("m2"), M2).unwrap();
    assert_eq!(
        shell("smt-echo show --binary m2 | smt-echo show | smt-echo print | smt-echo split", &folder),
        (0, "0 0 103\n".into())
    );
    assert_eq!(shell("cat m2 | smt-echo size - | head -n 1", &folder), (0, "length 103\n".into()));
    // A reader that has gone before all is written, which is more than a pipe holds.
    fs::write(folder.join("wide"), format!("problem\n0 const #b{}\n1 eq 0 0\nroot 1\n", "01".repeat(65_536))).unwrap();
    let gone =
        "{ smt-echo print wide 2> said; echo $? > status; } | true; while [ ! -s status ]; do sleep 0.1; done; cat status said";
    assert_eq!(shell(gone, &folder).1, "2\nsmt-echo: standard output: cannot be written: Broken pipe (os error 32)\n");
    assert_eq!(shell("smt-echo print m2 > /dev/full", &folder).0, 2);
    assert_eq!(shell("smt-echo print <&-", &folder).0, 2);
    assert_eq!(shell("echo problems | smt-echo print 2>&-", &folder).0, 2);
    assert_eq!(shell("printf 'problem\\nroot 1\\n' | smt-echo print 2>&-", &folder).0, 1);
    // An input without an end.
    assert_eq!(shell("yes problem | smt-echo print", &folder).0, 2);
    assert_eq!(shell("smt-echo lengthen < /dev/zero", &folder).0, 2);
}

#[test]
fn results_in_files() {
    let folder = folder("results");
    let file = folder.join("out.smt2");
    let to = |file: &Path, input: &str| run(&["print".as_ref(), "-o".as_ref(), file.as_os_str()], input.as_bytes());
    assert_eq!(to(&file, M2).done(), b"");
    assert_eq!(fs::read(&file).unwrap(), M2_SCRIPT.as_bytes());
    // Over what was there, through a link too.
    std::os::unix::fs::symlink(&file, folder.join("link")).unwrap();
    assert_eq!(to(&folder.join("link"), "problem").done(), b"");
    assert_eq!(fs::read(&file).unwrap(), M1_SCRIPT.as_bytes());
    // With the rights that it had.
    use std::os::unix::fs::PermissionsExt;
    fs::set_permissions(&file, fs::Permissions::from_mode(0o640)).unwrap();
    assert_eq!(to(&file, "problem").done(), b"");
    assert_eq!(fs::metadata(&file).unwrap().permissions().mode() & 0o777, 0o640);
    // Refused and not done: the file is as it was.
    to(&file, &M2.replace("root 3", "root 0")).refused();
    to(&file, "problem\n?").not_done();
    assert_eq!(fs::read(&file).unwrap(), M1_SCRIPT.as_bytes());
    // Where nothing can be written.
    for (name, why) in [("none/out", "No such file or directory (os error 2)"), ("out.smt2/x", "Not a directory (os error 20)")] {
        let line = to(&folder.join(name), M2).not_done();
        assert_eq!(line, format!("{}: cannot be written: {why}", folder.join(name).display()));
    }
    assert!(to(&folder, M2).not_done().contains("cannot be written: "));
    assert!(to(Path::new("/dev/full"), M2).not_done().contains("No space left on device"));
    assert_eq!(to(Path::new("/dev/null"), M2).done(), b"");
    assert_eq!(names_in(&folder), ["link", "out.smt2"]);
    for subcommand in ["size", "widths", "show", "split", "formulas", "fewest"] {
        let input = if subcommand == "split" { M2_SCRIPT } else { M2 };
        let out = run(&[subcommand], input.as_bytes()).done();
        assert_eq!(run(&[subcommand.as_ref(), "-o".as_ref(), file.as_os_str()], input.as_bytes()).done(), b"");
        assert_eq!(fs::read(&file).unwrap(), out);
    }
}

/// `-` is standard output where a file is to be written, as it is standard input where one is to be read.
#[test]
fn results_on_standard_output() {
    let folder = folder("standard_output");
    fs::write(folder.join("m2"), M2).unwrap();
    for subcommand in ["print", "size", "widths", "show", "formulas", "fewest"] {
        let out = run(&[subcommand], M2.as_bytes()).done();
        assert_eq!(run(&[subcommand, "-o", "-"], M2.as_bytes()).done(), out);
    }
    assert_eq!(shell("smt-echo size -o - m2 && smt-echo size - -o - < m2", &folder), (0, "length 103\nterms 5\n".repeat(2)));
    assert_eq!(shell("smt-echo print -o - m2 > /dev/full", &folder).0, 2);
    assert_eq!(names_in(&folder), ["m2"]);
    assert_eq!(shell("smt-echo size -o ./- m2", &folder), (0, String::new()));
    assert_eq!(fs::read(folder.join("-")).unwrap(), b"length 103\nterms 5\n");
}

/// Names that are nearly as long as a name can be, or too long; and the name of the part beside a file, where it is taken.
#[test]
fn results_under_long_names() {
    let folder = folder("long_names");
    let to = |name: &str| run(&["print".as_ref(), "-o".as_ref(), folder.join(name).as_os_str()], M2.as_bytes());
    let accents = "é".repeat(127) + "x";
    let names = ["n".repeat(250), "n".repeat(255), accents];
    for name in &names {
        assert_eq!(to(name).done(), b"");
        assert_eq!(to(name).done(), b"");
        assert_eq!(fs::read(folder.join(name)).unwrap(), M2_SCRIPT.as_bytes());
    }
    assert!(to(&"n".repeat(256)).not_done().ends_with("cannot be written: File name too long (os error 36)"));
    assert_eq!(names_in(&folder), names);
    let into = folder.join("s".repeat(255));
    assert_eq!(run(&["split".as_ref(), "--into".as_ref(), into.as_os_str()], M2_SCRIPT.as_bytes()).done(), b"");
    assert_eq!(names_in(&into), ["0.smt2"]);

    // What a run that was killed left behind, by a process of the same number, is neither in the way nor taken away.
    let command = "printf kept | tee out.$$.0.part > out.$$.1.part; mkdir cut.$$.0.part; echo $$; exec smt-echo";
    for (name, args) in [("out", "print -o out"), ("cut", "split --into cut")] {
        fs::write(folder.join("m2"), M2_SCRIPT).unwrap();
        let (status, number) = shell(&format!("{command} {args} m2"), &folder);
        assert_eq!(status, 0);
        assert!(folder.join(name).exists());
        for count in 0..2 {
            assert_eq!(fs::read(folder.join(format!("out.{}.{count}.part", number.trim()))).unwrap(), b"kept");
        }
        assert!(!folder.join(format!("{name}.{}.2.part", number.trim())).exists());
    }
    assert_eq!(fs::read(folder.join("out")).unwrap(), M2_SCRIPT.as_bytes());
}

/// A link is followed, also where what it names is not there yet.
#[test]
fn results_through_links() {
    use std::os::unix::fs::symlink;
    let folder = folder("links");
    let to = |name: &str, input: &str| run(&["print".as_ref(), "-o".as_ref(), folder.join(name).as_os_str()], input.as_bytes());
    fs::create_dir(folder.join("sub")).unwrap();
    symlink("../target", folder.join("sub/link")).unwrap();
    symlink("sub/link", folder.join("chain")).unwrap();
    symlink("none/target", folder.join("nowhere")).unwrap();
    symlink("loop", folder.join("loop")).unwrap();
    // Refused: nothing is made.
    to("chain", &M2.replace("root 3", "root 0")).refused();
    assert!(!folder.join("target").exists());
    // Not there, and there.
    for (name, input, script) in [("chain", M2, M2_SCRIPT), ("chain", "problem", M1_SCRIPT), ("sub/link", M2, M2_SCRIPT)] {
        assert_eq!(to(name, input).done(), b"");
        assert_eq!(fs::read_to_string(folder.join("target")).unwrap(), script);
    }
    // To an absolute path.
    symlink(folder.join("other"), folder.join("sub/absolute")).unwrap();
    assert_eq!(to("sub/absolute", M2).done(), b"");
    assert_eq!(fs::read_to_string(folder.join("other")).unwrap(), M2_SCRIPT);
    for (name, why) in
        [("nowhere", "No such file or directory (os error 2)"), ("loop", "Too many levels of symbolic links (os error 40)")]
    {
        assert_eq!(to(name, M2).not_done(), format!("{}: cannot be written: {why}", folder.join(name).display()));
    }
    for link in ["chain", "loop", "nowhere", "sub/absolute", "sub/link"] {
        assert!(fs::symlink_metadata(folder.join(link)).unwrap().is_symlink(), "{link}");
    }
    assert_eq!(names_in(&folder), ["chain", "loop", "nowhere", "other", "sub", "target"]);
    assert_eq!(names_in(&folder.join("sub")), ["absolute", "link"]);
    // Standard output by its name in the file system, where it is a pipe and where it is a file.
    fs::write(folder.join("m2"), M2).unwrap();
    let sizes = "smt-echo size -o /dev/stdout m2; smt-echo size -o /dev/stdout m2 > size; cat size";
    assert_eq!(shell(sizes, &folder), (0, "length 103\nterms 5\n".repeat(2)));
}

/// A script of 1.6 terabytes, which tests/sizes.rs has too: its size is told, and so is that it cannot be printed.
#[test]
fn over_what_memory_allows() {
    const SHORTER: &str = "fewer roots, or fewer uses of wide constants, make it shorter";
    let mut text =
        format!("problem\nfunction |f| 131072\nfunction |g| 131072\nbits{}\n0 const @0 131072\n", " 1".repeat(131_072));
    text += &format!("side{}\nside{}\n", " 0".repeat(6_148), (1..2_045).map(|i| format!(" {i}")).collect::<String>());
    for call in 1..=2_045 {
        text += &format!("{call} call 0 131072 @0 6148\n");
    }
    text += "2046 call 1 131072 @0 8192\n2047 eq 2046 2045\nroot 2047\n";
    let size = String::from_utf8(run(&["size"], text.as_bytes()).done()).unwrap();
    let length = size.lines().next().unwrap().strip_prefix("length ").unwrap();
    assert!(length.parse::<u64>().unwrap() > 1_600_000_000_000, "{length}");
    for args in [&["print"][..], &["print", "--hidden"]] {
        let told = format!("the script has {length} bytes, more than memory allows; {SHORTER}, as `smt-echo size` tells");
        assert_eq!(run(args, text.as_bytes()).not_done(), told);
    }
    let formulas = |length: u64| {
        let what = format!("the formulas may have up to {} bytes, 2 times the script's length", 2 * length);
        format!("{what}, more than memory allows; {SHORTER}, as `smt-echo size` tells")
    };
    assert_eq!(run(&["formulas"], text.as_bytes()).not_done(), formulas(length.parse().unwrap()));

    // A limit that leaves room for a script, and not for formulas of twice its length.
    let folder = folder("memory");
    let mut text = format!("problem\n0 const #b{}\n", "01".repeat(65_536));
    (1..251).for_each(|i| text += &format!("{i} eq 0 0\nroot {i}\n"));
    fs::write(folder.join("wide"), &text).unwrap();
    let script = "smt-echo print wide | wc -c";
    let (status, told) = shell(&format!("ulimit -v 100000; {script}; smt-echo formulas wide 2>&1; echo $?"), &folder);
    let (length, told) = told.split_once('\n').unwrap();
    assert_eq!((status, told), (0, &format!("smt-echo: {}\n2\n", formulas(length.trim().parse().unwrap()))[..]));

    // With `let` nothing tells the length: the buffer grows, here up to what a limit leaves.
    let mut text = format!("problem\n0 const #b{}\n1 bv_not 0\n2 eq 1 1\nroot 2\n", "01".repeat(65_536));
    (3..253).for_each(|i| text += &format!("{i} eq 0 0\nroot {i}\n"));
    fs::write(folder.join("wide"), &text).unwrap();
    let (_, told) = shell("ulimit -v 60000; smt-echo print --let wide 2>&1 > /dev/null; echo $?", &folder);
    let more = |bytes: u32| format!("smt-echo: the script has more than {bytes} bytes, more than memory allows; {SHORTER}\n2\n");
    assert!([8 << 20, 16 << 20, 32 << 20].map(more).contains(&told), "{told}");
    assert!(run(&["print", "--let"], text.as_bytes()).done().len() > 65_000_000);

    // A trace whose rows, or whose result, are more than a limit leaves.
    fs::write(folder.join("m2"), M2).unwrap();
    let rows = |count: usize| format!("x\n{}", "1\n".repeat(count));
    fs::write(folder.join("rows"), rows(500_000)).unwrap();
    let (_, told) = shell("ulimit -v 20000; smt-echo replay m2 rows 2>&1 > /dev/null; echo $?", &folder);
    let parts = "replay it in parts, each with the head";
    let more = ["has 500000 rows, more than memory allows", "there are more rows than memory allows"];
    let more = more.map(|what| format!("{what}; {parts}\n2\n"));
    assert!(more.iter().any(|end| told.starts_with("smt-echo: rows:") && told.ends_with(end)), "{told}");
    let name = "x".repeat(16_000);
    let mut text = format!("problem\nvariable |{name}| 8 node 0\n0 var 8\n");
    (1..65).for_each(|i| text += &format!("{i} ult 0 0\nroot {i}\n"));
    fs::write(folder.join("long"), &text).unwrap();
    fs::write(folder.join("rows"), rows(100).replace('x', &name)).unwrap();
    let (_, told) = shell("ulimit -v 100000; smt-echo replay --formulas long rows 2>&1 > /dev/null; echo $?", &folder);
    let formulas: usize = (0..64).map(|root| format!(" {root}    {root}: |{name}| < |{name}|\n").len()).sum();
    let length: usize = (0..100).map(|row| format!("{row} fails\n").len() + formulas).sum();
    let next = "it is shorter without `--formulas`";
    assert_eq!(told, format!("smt-echo: the result has {length} bytes, more than memory allows; {next}\n2\n"));
    fs::write(folder.join("short"), text.replace(&name, "x")).unwrap();
    fs::write(folder.join("rows"), rows(500_000)).unwrap();
    let (_, told) = shell("ulimit -v 80000; smt-echo replay short rows 2>&1 > /dev/null; echo $?", &folder);
    let all: usize = (0..64).map(|root| format!(" {root}").len()).sum();
    let length: usize = (0..500_000).map(|row| format!("{row} fails\n").len() + all).sum();
    let next = "replay the trace in parts, each with the head";
    assert_eq!(told, format!("smt-echo: the result has {length} bytes, more than memory allows; {next}\n2\n"));
}

/// Terms that double 40 times: as a tree a terabyte, with `let` a few lines. What to look at in one that is refused is found at once.
#[test]
fn shared_terms() {
    let mut text = String::from("problem\nvariable |x| 8 node 0\n0 var 8\n");
    for i in 1..=40 {
        text += &format!("{i} add {0} {0}\n", i - 1);
    }
    text += "41 eq 40 0\nroot 41\n";
    let script = String::from_utf8(run(&["print", "--let"], text.as_bytes()).done()).unwrap();
    assert!(script.contains("(let ((|d1| (bvadd |x| |x|))) (let ((|d2| (bvadd |d1| |d1|))) "), "{script}");
    assert!(script.contains("(= (bvadd |d39| |d39|) |x|)") && script.len() < 2_000, "{script}");
    let (number, _) = run(&["print"], text.as_bytes()).refused();
    assert_eq!(number, 6);
    let (number, look) = run(&["print", "--let"], text.replace("|x| 8", "|x| 9").as_bytes()).refused();
    assert_eq!((number, look.as_str()), (4, "below node 1, `add 0 0`: node 0, `var 8`, has width 8, and variable 0, |x|, has 9"));
    // Longer than the first buffer, which grows.
    let wide =
        format!("problem\n0 const #b{}\n{}", "01".repeat(65_536), "1 concat 0 0\n2 concat 1 1\n3 concat 2 2\n4 eq 3 3\nroot 4\n");
    let most: String = (5..25).map(|i| format!("{i} eq 0 0\nroot {i}\n")).collect();
    let script = run(&["print", "--let"], (wide + &most).as_bytes()).done();
    assert!(script.len() > 2 << 20 && script.ends_with(b"(check-sat)\n"));
}

/// The deepest terms: the walk is recursive.
#[test]
fn deep() {
    let mut text = String::from("problem\nvariable |x| 8 node 0\n0 var 8\n");
    for i in 1..2_047 {
        text += &format!("{i} neg {}\n", i - 1);
    }
    text += "2047 eq 2046 0\nroot 2047\n";
    let (open, close) = ("(bvneg ".repeat(2_046), ")".repeat(2_046));
    let script = M2_SCRIPT.replace("(bvadd |x| #b00000101)", &format!("{open}|x|{close}"));
    assert_eq!(run(&["print"], text.as_bytes()).done(), script.as_bytes());
    let wrong = text.replace("|x| 8", "|x| 9");
    let (number, look) = run(&["print"], wrong.as_bytes()).refused();
    assert_eq!((number, look.as_str()), (4, "below node 1, `neg 0`: node 0, `var 8`, has width 8, and variable 0, |x|, has 9"));
}

/// Scripts read back: by `read`, and wherever a problem is wanted.
#[test]
fn scripts_read_back() {
    let layout = run(&["show", "--binary"], M2.as_bytes()).done();
    assert_eq!(run(&["read"], M2_SCRIPT.as_bytes()).done(), layout);
    assert_eq!(run(&["read", "--show"], M2_SCRIPT.as_bytes()).done(), run(&["show"], &layout).done());
    for subcommand in [&["print"][..], &["print", "--hidden"], &["size"], &["widths"], &["formulas"], &["fewest"], &["show"]] {
        assert_eq!(run(subcommand, M2_SCRIPT.as_bytes()).done(), run(subcommand, &layout).done(), "{subcommand:?}");
    }
    assert_eq!(run(&["print"], &run(&["read"], M2_SCRIPT.as_bytes()).done()).done(), M2_SCRIPT.as_bytes());

    // 13, with the line to look at
    let change = |from: &str, to: &str| {
        assert!(M2_SCRIPT.contains(from), "{from}");
        M2_SCRIPT.replace(from, to)
    };
    for (script, look) in [
        (change("(check-sat)\n", ""), "the end: a script ends with `(check-sat)` and a line feed (byte 10)"),
        (change("(check-sat)\n", "(check-sat)"), "the end: a script ends with `(check-sat)` and a line feed (byte 10)"),
        (change("(check-sat)\n", "(check-sat)") + M1_SCRIPT, "line 4: the line feed (byte 10) behind `(check-sat)` is missing"),
        (
            change("(check-sat)\n", "(check-sat) \n") + M1_SCRIPT,
            "line 4: the line feed (byte 10) behind `(check-sat)` is missing",
        ),
        (M1_SCRIPT.trim_end().to_string() + M2_SCRIPT, "line 2: the line feed (byte 10) behind `(check-sat)` is missing"),
        (change("(check-sat)\n", "(check-sat)\n; that is all\n"), "line 5: more follows the line `(check-sat)`"),
        (M2_SCRIPT.repeat(2), "line 5: more follows the line `(check-sat)`; `smt-echo split` cuts scripts that stand end to end"),
        (change("QF_BV", "QF_ABV"), "line 1: the logic is not the one of these declarations"),
        (
            change("BitVec 8", "BitVec 08"),
            "line 2: it is no declaration as the printer writes it, or its name is refused or given before",
        ),
        (
            change("|x| (_", "|let| (_"),
            "line 2: it is no declaration as the printer writes it, or its name is refused or given before",
        ),
        (change("(bvadd |x|", "(bvadd |y|"), "line 3: it is no assertion over these declarations as the printer writes it"),
        (
            change("(check-sat)", "(declare-const |z| (_ BitVec 8))\n(check-sat)"),
            "line 4: it is no assertion over these declarations as the printer writes it",
        ),
        (change("(= (bvadd", "(=  (bvadd"), "line 3: it is no assertion over these declarations as the printer writes it"),
        (change("#b00000101", "#b101"), "line 3: it is no assertion over these declarations as the printer writes it"),
        (M2_SCRIPT.replace('\n', "\r\n"), "line 1: it ends with bytes 13 and 10, and a line of a script ends with byte 10 alone"),
        (change("8))\n", "8))\r\n"), "line 2: it ends with bytes 13 and 10, and a line of a script ends with byte 10 alone"),
        (
            change("(= (bvadd |x| #b00000101) |x|)", "(let ((|d2| (bvneg |x|))) (= |d2| |d2|))"),
            "line 3: it has `let`, and what `smt-echo print --let` writes is not read back",
        ),
    ] {
        assert_eq!(run(&["read"], script.as_bytes()).refused(), (13, look.to_string()), "{script}");
        assert_eq!(run(&["size"], script.as_bytes()).refused(), (13, look.to_string()), "{script}");
    }
    assert_eq!(run(&["read"], b"(check-sat)\n").refused(), (13, "line 1: a script begins with the line of its logic".into()));
    let told = run(&["read"], b"Hello, world!\n");
    assert!(told.status == 1 && told.err.starts_with("refused: 13 NoScript: the bytes are no problem's script"), "{told:?}");

    // 9: a width that its record cannot hold, and a script nested more deeply than there are nodes
    let wide = run(
        &["read"],
        change("BitVec 8", "BitVec 4294967296").replace("(assert (= (bvadd |x| #b00000101) |x|))\n", "").as_bytes(),
    );
    let over = "with it the problem is over a limit, or has a number that its record cannot hold";
    assert_eq!(wide.refused(), (9, format!("line 2: {over}")));
    let not = |count: usize| "(not ".repeat(count) + "(= |x| |x|)" + &")".repeat(count);
    let many = change("(assert (= (bvadd |x| #b00000101) |x|))\n", &format!("(assert {})\n", not(1_000)).repeat(3));
    assert_eq!(run(&["size"], many.as_bytes()).refused(), (9, format!("line 5: {over}")));
    let deep = change("(= (bvadd |x| #b00000101) |x|)", &not(7_000));
    assert_eq!(run(&["read"], deep.as_bytes()).refused(), (9, "line 3: more than 6146 brackets are open at once".into()));
    let deep = change("(= (bvadd |x| #b00000101) |x|)", &("(not ".repeat(200_000) + "(= |x| |x|)" + &")".repeat(200_000)));
    let deep = run(&["read"], deep.as_bytes());
    assert!(deep.status == 1 && deep.err.starts_with("refused: 9 Limit: "), "{deep:?}");
}

// ---------------------------------------------------------------- releases

/// A script with one variable.
fn declaring(name: &str, width: u64) -> String {
    format!("(set-logic QF_BV)\n(declare-const |{name}| (_ BitVec {width}))\n(check-sat)\n")
}

/// Releases from one file, from several and from standard input: accepted, every number, and what to look at.
#[test]
fn releases() {
    let folder = folder("releases");
    let path = |name: &str| folder.join(name).display().to_string();
    for (name, text) in [
        ("i16", declaring("idx", 16)),
        ("i17", declaring("idx", 17)),
        ("m2", M2_SCRIPT.into()),
        ("empty", String::new()),
        ("two", M1_SCRIPT.to_string() + &declaring("idx", 17)),
        ("let", M2_SCRIPT.replace("(= (bvadd |x| #b00000101) |x|)", "(let ((|d1| (bvneg |x|))) (= |d1| |d1|))")),
        ("half", M2_SCRIPT[..60].into()),
        ("end", M2_SCRIPT[60..].into()),
        ("wide", declaring("w", 1 << 40)),
        ("cut", M2_SCRIPT.trim_end().into()),
    ] {
        fs::write(path(name), text).unwrap();
    }
    let files =
        |names: &[&str]| -> Vec<String> { ["release".into()].into_iter().chain(names.iter().map(|name| path(name))).collect() };
    let check = |names: &[&str]| run(&files(names), b"");

    // Accepted: how many scripts there are. Where one file ends and the next begins does not matter.
    assert_eq!(check(&["i16"]).done(), b"scripts 1\n");
    assert_eq!(check(&["i16", "m2", "i16", "empty", "i16"]).done(), b"scripts 4\n");
    assert_eq!(check(&["i16", "half", "end"]).done(), b"scripts 2\n");
    assert_eq!(check(&["i17", "two"]).done(), b"scripts 3\n");
    assert_eq!(check(&["empty"]).done(), b"scripts 0\n");
    assert_eq!(run(&["release"], b"").done(), b"scripts 0\n");
    assert_eq!(run(&["release"], declaring("idx", 16).repeat(64).as_bytes()).done(), b"scripts 64\n");
    assert_eq!(run(&["release", "-"], M2_SCRIPT.as_bytes()).done(), b"scripts 1\n");
    assert_eq!(run(&["release", &path("i16"), "-", &path("m2")], M2_SCRIPT.as_bytes()).done(), b"scripts 3\n");
    let out = path("out");
    assert_eq!(run(&["release", "-o", &out, &path("i16")], b"").done(), b"");
    assert_eq!(fs::read(&out).unwrap(), b"scripts 1\n");

    // 17: the name, both declarations, both scripts, both places
    let (i16, i17) = ("(declare-const |idx| (_ BitVec 16))", "(declare-const |idx| (_ BitVec 17))");
    let told = |one: &str, k: usize, at: &str, other: &str, l: usize, to: &str| {
        (17, format!("|idx|: {one} in script {k}, {at}; {other} in script {l}, {to}"))
    };
    assert_eq!(check(&["i16", "i17"]).refused(), told(i16, 0, &(path("i16") + ":2"), i17, 1, &(path("i17") + ":2")));
    assert_eq!(
        check(&["m2", "empty", "i16", "i16", "two", "i17"]).refused(),
        told(i16, 1, &(path("i16") + ":2"), i17, 4, &(path("two") + ":4"))
    );
    let file = [M2_SCRIPT, &declaring("idx", 17), &declaring("idx", 16)].concat();
    assert_eq!(run(&["release"], file.as_bytes()).refused(), told(i17, 1, "standard input:6", i16, 2, "standard input:9"));
    let first = run(&["release"], file.as_bytes()).err;
    assert!(
        first.starts_with("refused: 17 TwoMeanings: script 2 declares a name with another kind, width or arguments "),
        "{first}"
    );
    // the first of several names, and what kinds there are
    let rich = |x: &str, m: &str, f: &str| {
        format!(
            "(set-logic QF_AUFBV)\n(declare-const |x| {x})\n(declare-const |m| (Array (_ BitVec 8) {m}))\n\
             (declare-fun |f| ((_ BitVec 8) {f}) (_ BitVec 8))\n(check-sat)\n"
        )
    };
    let (eight, nine) = ("(_ BitVec 8)", "(_ BitVec 9)");
    for (other, look) in [
        (
            rich(nine, nine, nine),
            "|x|: (declare-const |x| (_ BitVec 8)) in script 0, standard input:2; (declare-const |x| (_ BitVec 9)) in script 1, \
             standard input:7; and 2 names more of that script",
        ),
        (
            rich(eight, nine, nine),
            "|m|: (declare-const |m| (Array (_ BitVec 8) (_ BitVec 8))) in script 0, standard input:3; (declare-const |m| (Array (_ BitVec \
             8) (_ BitVec 9))) in script 1, standard input:8; and one name more of that script",
        ),
        (
            rich(eight, eight, nine),
            "|f|: (declare-fun |f| ((_ BitVec 8) (_ BitVec 8)) (_ BitVec 8)) in script 0, standard input:4; (declare-fun |f| ((_ BitVec 8) \
             (_ BitVec 9)) (_ BitVec 8)) in script 1, standard input:9",
        ),
    ] {
        assert_eq!(run(&["release"], (rich(eight, eight, eight) + &other).as_bytes()).refused(), (17, look.to_string()));
    }
    // names in other alphabets and in none, and long ones
    for (name, shown) in [
        (&b"\xe9\xa0\x98"[..], "|\u{9818}|"),
        (b"\xff(check-sat)", "|\u{fffd}(check-sat)|"),
        (&[b'n'; 9_000], "|nnnnnnnnnnnnnnnnnnnnnnnnnnnnnnnnnnnnnnnnnnnnnnnnnnnnnnnnnnn ..: (declare-const |n"),
    ] {
        let named = |width: u64| declaring("?", width).into_bytes().split(|b| *b == b'?').collect::<Vec<_>>().join(name);
        let (number, look) = run(&["release"], &[named(16), named(17)].concat()).refused();
        assert!(number == 17 && look.starts_with(shown) && look.len() < 600, "{look}");
        assert!(look.contains(" (_ BitVec 16)) in script 0, ") && look.contains(" (_ BitVec 17)) in script 1, "), "{look}");
    }

    // 13: the script, and the line at fault in its file; a script that goes on from one file into the next
    let no_let = "it has `let`, and what `smt-echo print --let` writes is not read back";
    assert_eq!(check(&["i16", "i17", "let"]).refused(), (13, format!("script 2, {}:3: {no_let}", path("let"))));
    let end = "a script ends with `(check-sat)` and a line feed (byte 10)";
    let begins = |script: usize, at: String| format!("script {script}, which begins at {at}");
    assert_eq!(check(&["two", "half"]).refused(), (13, format!("{}: {end}", begins(2, path("half") + ":1"))));
    assert_eq!(check(&["two", "cut"]).refused(), (13, format!("{}: {end}", begins(2, path("cut") + ":1"))));
    let missing = "the line feed (byte 10) behind `(check-sat)` is missing";
    assert_eq!(check(&["two", "cut", "m2"]).refused(), (13, format!("script 2, {}:4: {missing}", path("cut"))));
    let (number, look) = check(&["half", "i16"]).refused();
    assert!(number == 13 && look.starts_with(&format!("script 0, {}:", path("half"))), "{look}");
    let (number, look) = check(&["i16", "end"]).refused();
    assert!(number == 13 && look.starts_with(&format!("script 1, {}:1: ", path("end"))), "{look}");
    assert_eq!(run(&["release"], b"Hello, world!\n").refused(), (13, format!("{}: {end}", begins(0, "standard input:1".into()))));
    assert_eq!(
        run(&["release"], (declaring("idx", 16).repeat(64) + "\n").as_bytes()).refused(),
        (13, format!("{}: {end}", begins(64, "standard input:193".into())))
    );

    // 9: a script over a limit, one nested too deeply, and too many scripts
    let (number, look) = check(&["i16", "i17", "wide", "let"]).refused();
    assert!(
        number == 9 && look.starts_with(&format!("script 2, {}:2: with it the problem is over a limit", path("wide"))),
        "{look}"
    );
    let deep =
        M2_SCRIPT.replace("(= (bvadd |x| #b00000101) |x|)", &("(not ".repeat(200_000) + "(= |x| |x|)" + &")".repeat(200_000)));
    assert_eq!(run(&["release"], (declaring("x", 8) + &deep).as_bytes()).refused(), (9, begins(1, "standard input:4".into())));
    let many = run(&["release"], declaring("idx", 16).repeat(70).as_bytes());
    assert!(many.err.starts_with("refused: 9 Limit: there are more than 64 scripts"), "{many:?}");
    assert_eq!(many.refused(), (9, begins(64, "standard input:193".into()) + "; there are 70"));
    let m2 = path("m2");
    assert_eq!(check(&["m2"; 65]).refused(), (9, begins(64, m2 + ":1") + "; there are 65"));

    // Not done: nothing is checked where a file cannot be read.
    assert_eq!(
        check(&["i16", "missing", "i17"]).not_done(),
        format!("{}: cannot be read: No such file or directory (os error 2)", path("missing"))
    );
    let refused = run(&["release", "-o", &out, &path("i16"), &path("i17")], b"");
    assert_eq!((refused.status, fs::read(&out).unwrap()), (1, b"scripts 1\n".to_vec()));
    // As files are named by a shell.
    assert_eq!(
        shell("smt-echo release i1[66] m? && cat i16 two | smt-echo release 2>&1 | tail -n 1 | cut -c -14", &folder).1,
        "scripts 2\nlook at: |idx|\n"
    );
}
