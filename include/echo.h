/*
 * The printer `echo_ext`, the same with constants hidden `echo_hidden`, the same with shared terms bound by let `echo_let`, the roots as the
 * lines of a map file `echo_formulas`, the size of a script `echo_size`, the fewest roots that still refuse `fewest_roots`, the replay of a trace
 * `replay_trace`, the width pass `ext_wf`, `next_script`, which cuts a file of scripts, `read_script`, which reads a script back into a problem,
 * `check_release`, which sees to it that a name has one meaning in a file of scripts, and the conversions of node records `shorten_records` and
 * `lengthen_records`, for C and C++.
 *
 * The library is target/staticlib/libecho_c.a, written by `sh tools/staticlib.sh`, or lib/libecho_c.a of the archive. It is for x86-64, level
 * v2 (SSE4.2 and POPCNT) and above, with the System V calling convention, and can be linked into a program or into a shared library. It
 * allocates nothing, keeps nothing between calls, so that threads may call it at one time, and needs only memcpy and memset of the C library.
 *
 * The functions take slices: a pointer and a number of elements (not of bytes). For each slice the caller sees to it that
 *
 *   - the pointer is not null and is aligned for its element, also where the number is 0. For an empty slice hand in the address of
 *     any object of the element type. Only the inline functions of this file take null there: those over `struct echo_problem`, at its
 *     end, echo_script_depth and echo_release_depth;
 *   - that many elements can be read there, and for an output be written too;
 *   - an output overlaps no input, and the two outputs of replay_trace, and the eighteen of read_script, do not overlap each other. Inputs
 *     may overlap each other, since they are only read;
 *   - no other thread writes an input, or touches an output, until the call is back.
 *
 * That is all that is asked. What the elements are is free: each input is answered, by an acceptance or by a refusal, and nothing
 * outside the slices is read or written.
 */
#ifndef ECHO_H
#define ECHO_H

#include <stddef.h>
#include <stdint.h>

#ifdef __cplusplus
extern "C" {
#endif

/*
 * The limits. An input over its limit is refused by ECHO_LIMIT before anything else is looked at. A column is any of name_start,
 * name_len, var_node, var_width, aname_start, aname_len, index_width, value_width, fname_start, fname_len and func_width; an arena is
 * any of names, anames and fnames.
 */
enum {
    ECHO_NODE_BYTES = 17,         /* bytes of a node record */
    ECHO_MAX_NODES = 2048,        /* node records */
    ECHO_MAX_NODES_LEN = 34816,   /* elements of nodes: ECHO_MAX_NODES records */
    ECHO_MAX_BITS_LEN = 131072,   /* elements of bits */
    ECHO_MAX_SIDE_LEN = 8192,     /* elements of side */
    ECHO_MAX_ROOTS_LEN = 256,     /* elements of roots */
    ECHO_MAX_COLUMN_LEN = 512,    /* elements of a column */
    ECHO_MAX_ARENA_LEN = 16384,   /* elements of an arena */
    ECHO_MAX_ARRAY_WIDTH = 65536, /* the widest index and the widest value of an array */
    ECHO_MAX_TRACE_ROOTS = 64,    /* elements of roots for replay_trace: one for each bit of a mask */
    ECHO_MAX_SCRIPT_DEPTH = 6146, /* brackets that are open at once in a script that read_script accepts */
    ECHO_MAX_SCRIPTS = 64         /* scripts of a release */
};

/*
 * The numbers that are answered. ECHO_WIDE and ECHO_VALUES are replay_trace's alone, which besides answers what echo_ext does.
 * ECHO_SHORT_RECORD is lengthen_records' alone; the conversions of records have their own lists, further down. ECHO_NO_SCRIPT is
 * read_script's, which besides answers ECHO_ACCEPTED, ECHO_LIMIT or ECHO_ROOM, and check_release's, which besides answers ECHO_ACCEPTED,
 * ECHO_LIMIT or ECHO_TWO_MEANINGS, its own. Of the others echo_ext, echo_hidden and echo_formulas answer any but ECHO_CLASH, echo_let any
 * but ECHO_SHARED, echo_size and fewest_roots any but ECHO_ROOM and ECHO_CLASH. ext_wf answers ECHO_ACCEPTED, ECHO_MALFORMED,
 * ECHO_ENCODING, ECHO_LIMIT, ECHO_ROOM or ECHO_ARRAY_WIDTH.
 *
 * If several things are wrong, the order is 9, 8, 1 (columns), 12, 1 (width pass), 2, 6 or for echo_let 11, 4 and 7 (declarations), then
 * what the walk over the roots meets first, and 10 last.
 */
enum {
    /* The result is at the front of the output. */
    ECHO_ACCEPTED = 0,

    /*
     * A node is not well formed (ext_wf over the same nodes, bits, side and array widths tells which); or the columns of one table
     * differ in length; or a root is no node; or a node below a root names an array or a function that its table does not have.
     */
    ECHO_MALFORMED = 1,

    /*
     * A declared name cannot stand in the script: it is empty or not wholly inside its arena; has a byte below 32, byte 127, a bar
     * or a backslash; begins with an at sign or a full stop; is a word of SMT-LIB (2.7 too) or of a solver, such as "bvadd" or
     * "int_to_bv"; or is given twice, be it in two tables. Rename it. Bytes from 128 to 255 are permitted, in any encoding, and names
     * are compared byte by byte.
     */
    ECHO_NAME = 2,

    /*
     * A Bool stands where a bit-vector is wanted, or a bit-vector where a Bool is: a root, an operand of not, and, or, and the
     * condition of an ite are Bool, every other operand and every side entry is a bit-vector. To assert a bit-vector of width 1
     * compare it with a constant; to make one of a Bool use an ite.
     */
    ECHO_SORT = 3,

    /*
     * An element of var_width is 0; or a variable below a root is not in var_node, or the first entry that names its node there has
     * another width in var_width.
     */
    ECHO_VAR = 4,

    /*
     * A rotation below a root is by a term that is no constant node, or its width is above 65,536. Rotate by a constant, or write
     * the rotation as shifts.
     */
    ECHO_ROTATE = 5,

    /*
     * A node that is neither variable nor constant is used twice or more, by operands, side entries and roots together, reached or
     * not. Repeat the node for each use, since the script is a tree, or print with echo_let.
     */
    ECHO_SHARED = 6,

    /*
     * No node calls a function of the table, its func_width is 0, or its first call in node order reads past the end of side; or a
     * call below a root has another width than func_width says, or other arguments in number or width than that first call. Drop
     * functions that are not called, and declare one function for each signature.
     */
    ECHO_SIGNATURE = 7,

    /*
     * The bytes are no encoding of a problem: nodes is no whole number of records, a kind is above 38, an operand that the kind
     * does not have is not 0, or an element of bits, used or not, is neither 0 nor 1.
     */
    ECHO_ENCODING = 8,

    /*
     * An input is longer than its limit; of replay_trace also more than ECHO_MAX_TRACE_ROOTS roots. Split the problem. Of read_script: the
     * problem that the script is rebuilt as is over a limit, or a number of it does not fit the 32 bits of its record. Of check_release: that,
     * of the script that is told; or there are more than ECHO_MAX_SCRIPTS check-sat lines, and ECHO_MAX_SCRIPTS is told.
     */
    ECHO_LIMIT = 9,

    /*
     * Nothing is wrong with the problem, but the result is longer than the output. Call again with a longer one. The length is 0
     * here; echo_size tells the length to set aside for echo_ext and echo_hidden, and a problem within the limits can need more than a
     * machine has. Of read_script: nothing is wrong with the script, but an output is shorter than its part; as long as the limits suffices.
     */
    ECHO_ROOM = 10,

    /*
     * Of echo_let alone: a declared name, in any table, is the letter d and the number of a node, in decimal without leading zeros, that
     * ECHO_SHARED would be about, reached or not. Rename it.
     */
    ECHO_CLASH = 11,

    /* An element of index_width or value_width is 0 or above ECHO_MAX_ARRAY_WIDTH, whether a node names the array or not. */
    ECHO_ARRAY_WIDTH = 12,

    /*
     * Of read_script and check_release: the bytes are no problem's script. A script is what echo_ext prints, byte for byte; a problem may have
     * any number of nodes, bits, side entries and roots and any operand here, but no width of 2^64 or more.
     */
    ECHO_NO_SCRIPT = 13,

    /* Of replay_trace alone: a term that a root reaches is wider than 64 bits, or a select or call. A rotation's amount is no term. */
    ECHO_WIDE = 14,

    /* Of replay_trace alone: the values are no whole number of rows, or one does not fit the width of its variable. */
    ECHO_VALUES = 15,

    /* Shorter records end inside a record, or have a kind above 38. */
    ECHO_SHORT_RECORD = 16,

    /*
     * Of check_release alone: the script that is told declares a name with another kind, width or arguments than a script before it. Rename
     * it in one of the two rules, or give it one meaning in both.
     */
    ECHO_TWO_MEANINGS = 17
};

/*
 * The kinds of a node. Byte 0 of a record is the kind; bytes 1 to 4, 5 to 8, 9 to 12 and 13 to 16 are operands, each a little-endian
 * number. Operands that a kind does not have are 0. Below, a, b and c are numbers of nodes, which must stand before the node; the same
 * goes for the side entries that it reads. The first record is node 0.
 */
enum {
    ECHO_KIND_VAR = 0,         /* width */
    ECHO_KIND_CONST = 1,       /* place of the lowest bit in bits, width; the lowest bit first */
    ECHO_KIND_ADD = 2,         /* a, b: two bit-vectors of one width, as up to ECHO_KIND_ROTR */
    ECHO_KIND_SUB = 3,
    ECHO_KIND_MUL = 4,
    ECHO_KIND_UDIV = 5,
    ECHO_KIND_UREM = 6,
    ECHO_KIND_AND = 7,
    ECHO_KIND_OR = 8,
    ECHO_KIND_XOR = 9,
    ECHO_KIND_SHL = 10,
    ECHO_KIND_LSHR = 11,
    ECHO_KIND_ASHR = 12,
    ECHO_KIND_ROTR = 13,       /* a, b: b is a constant node, the amount */
    ECHO_KIND_EXTRACT = 14,    /* highest bit, lowest bit, a */
    ECHO_KIND_CONCAT = 15,     /* a, b: a has the high bits */
    ECHO_KIND_ZERO_EXT = 16,   /* a, by how many bits */
    ECHO_KIND_SIGN_EXT = 17,   /* a, by how many bits */
    ECHO_KIND_ITE = 18,        /* a, b, c: a Bool and two bit-vectors of one width */
    ECHO_KIND_EQ = 19,         /* a, b: two bit-vectors of one width, into a Bool, as up to ECHO_KIND_SGE */
    ECHO_KIND_NE = 20,
    ECHO_KIND_ULT = 21,
    ECHO_KIND_ULE = 22,
    ECHO_KIND_UGT = 23,
    ECHO_KIND_UGE = 24,
    ECHO_KIND_SLT = 25,
    ECHO_KIND_SLE = 26,
    ECHO_KIND_SGT = 27,
    ECHO_KIND_SGE = 28,
    ECHO_KIND_NOT = 29,        /* a: a Bool */
    ECHO_KIND_BOOL_AND = 30,   /* a, b: two Bools */
    ECHO_KIND_BOOL_OR = 31,    /* a, b: two Bools */
    ECHO_KIND_BV_NOT = 32,     /* a: a bit-vector */
    ECHO_KIND_NEG = 33,        /* a: a bit-vector */
    ECHO_KIND_ROTL = 34,       /* a, b: b is a constant node, the amount */
    ECHO_KIND_SDIV = 35,       /* a, b: two bit-vectors of one width */
    ECHO_KIND_SREM = 36,       /* a, b: two bit-vectors of one width */
    ECHO_KIND_SELECT = 37,     /* array, a, side start, n: a is the index, as wide as the array's; n pairs of index and value in side
                                  are stores, as wide as the array's, the first the outermost */
    ECHO_KIND_CALL = 38        /* function, width, side start, n: n arguments in side */
};

/* What echo_ext, echo_hidden, echo_let and echo_formulas answer. */
struct echo_answer {
    uint64_t number; /* ECHO_ACCEPTED, or why the problem is refused */
    uint64_t length; /* the length of the script or of the lines; 0 with a refusal */
};

/* What echo_size answers. */
struct size_answer {
    uint64_t number; /* ECHO_ACCEPTED, or why the problem is refused; never ECHO_ROOM */
    uint64_t length; /* the length of the script; 0 with a refusal */
    uint64_t terms;  /* how many terms the walk enters; 0 with a refusal */
};

/* What the conversions of records answer. */
struct record_answer {
    uint64_t number; /* ECHO_ACCEPTED, or why the bytes are refused */
    uint64_t length; /* the length of the result; 0 with a refusal */
};

/* What fewest_roots answers. */
struct fewest_answer {
    uint64_t number; /* ECHO_ACCEPTED, or why the problem is refused; never ECHO_ROOM */
    uint64_t count;  /* how many positions there are: 0, 1 or 2 */
    uint64_t first;  /* the first position, from 0; 0 where there is none */
    uint64_t second; /* the second position, after the first; 0 where there is none */
};

/* What replay_trace answers. */
struct trace_answer {
    uint64_t number; /* ECHO_ACCEPTED, or why the problem or the trace is refused */
    uint64_t rows;   /* how many rows there are; 0 with a refusal */
};

/* What ext_wf answers. */
struct width_answer {
    uint64_t number; /* ECHO_ACCEPTED, or why the nodes are refused */
    uint64_t count;  /* the number of nodes; with ECHO_MALFORMED the number of the refused node, or the number of nodes where
                        index_width and value_width differ in length; 0 with any other refusal */
};

/* What next_script answers. */
struct script_answer {
    uint64_t found;  /* 1 if there is a script, 0 if not */
    uint64_t length; /* the length of the first script; 0 if there is none */
};

/*
 * What read_script answers: how many elements of each output are used, all 0 with a refusal. The columns of a table are of one length,
 * told once.
 */
struct read_answer {
    uint64_t number;    /* ECHO_ACCEPTED, or why the script is refused */
    uint64_t nodes;     /* of nodes: bytes, ECHO_NODE_BYTES a record */
    uint64_t bits;      /* of bits */
    uint64_t side;      /* of side */
    uint64_t roots;     /* of roots */
    uint64_t names;     /* of names */
    uint64_t variables; /* of each of name_start, name_len, var_node and var_width */
    uint64_t anames;    /* of anames */
    uint64_t arrays;    /* of each of aname_start, aname_len, index_width and value_width */
    uint64_t fnames;    /* of fnames */
    uint64_t functions; /* of each of fname_start, fname_len and func_width */
};

/* What check_release answers. */
struct release_answer {
    uint64_t number; /* ECHO_ACCEPTED, or why the release is refused: ECHO_LIMIT, ECHO_NO_SCRIPT or ECHO_TWO_MEANINGS */
    uint64_t script; /* the script that is told of, from 0; 0 where the release is accepted */
};

/*
 * Prints a problem as an SMT-LIB script.
 *
 *   nodes, bits, side      the terms: node records, the bits of constants, the side entries of selects and calls
 *   roots                  the nodes that are asserted, in order
 *   names ..               a table of variables: names is an arena of bytes, and entry i is the name_len[i] bytes of it from
 *                          name_start[i] on, for node var_node[i], of width var_width[i]
 *   anames ..              a table of arrays, by number; index_width[i] is the width of the index, value_width[i] that of the value
 *   fnames ..              a table of functions, by number; func_width[i] is the width of the result. The argument widths are those
 *                          of the first node that calls the function
 *
 * Accepted: number is ECHO_ACCEPTED, out[0] to out[length - 1] is the script, and every element of out from out[length] on is what it
 * was before the call. The script ends in a line break. No byte 0 is put after it.
 *
 * Refused: number is 1 to 10 or 12, length is 0, and all out_len elements of out are 0.
 *
 * An output of out_len 0 is allowed; every script is longer than that, so that a problem is refused by some number then.
 *
 * The walk over the terms is recursive, and its depth comes from the input. On the deepest problems found within the limits it took 243 KB
 * of stack, as measured; the proofs say nothing about the stack. On a thread with less such a problem ends the process, as any overflow of
 * the stack does. A thread of 1 MB holds every function that takes a problem.
 */
struct echo_answer echo_ext(
    const uint8_t *nodes, size_t nodes_len,
    const uint8_t *bits, size_t bits_len,
    const uint64_t *side, size_t side_len,
    const uint64_t *roots, size_t roots_len,
    const uint8_t *names, size_t names_len,
    const uint64_t *name_start, size_t name_start_len,
    const uint64_t *name_len, size_t name_len_len,
    const uint64_t *var_node, size_t var_node_len,
    const uint64_t *var_width, size_t var_width_len,
    const uint8_t *anames, size_t anames_len,
    const uint64_t *aname_start, size_t aname_start_len,
    const uint64_t *aname_len, size_t aname_len_len,
    const uint64_t *index_width, size_t index_width_len,
    const uint64_t *value_width, size_t value_width_len,
    const uint8_t *fnames, size_t fnames_len,
    const uint64_t *fname_start, size_t fname_start_len,
    const uint64_t *fname_len, size_t fname_len_len,
    const uint64_t *func_width, size_t func_width_len,
    uint8_t *out, size_t out_len);

/*
 * Prints a problem as echo_ext does, but each constant shows zeros in its width, so that a script can be sent on without the addresses
 * that are in it. It takes what echo_ext takes.
 *
 * Number and length are those of echo_ext with the same inputs and an output of the same length: the hidden script is refused as the plain
 * one is, and as long. Accepted or refused, the output is as echo_ext says. It is as recursive as echo_ext.
 *
 * Two problems that differ in bits alone, each of them 0 or 1, and in none that lies in the constant of some rotation's amount, reached or
 * not, have one answer: the same number, the same length, the same script.
 *
 * What a hidden script still shows: every name, every width, the amount of each rotation modulo its width, the numbers of extracts and
 * extensions, and the shape of the terms, with the places where constants stand and how wide they are. While the call runs the output
 * holds the plain script; when it is back it does not.
 *
 * Nothing is promised about equal problems: two problems with one hidden script may be told apart by any constant. A solver's answer to
 * a hidden script says nothing about the problem.
 */
struct echo_answer echo_hidden(
    const uint8_t *nodes, size_t nodes_len,
    const uint8_t *bits, size_t bits_len,
    const uint64_t *side, size_t side_len,
    const uint64_t *roots, size_t roots_len,
    const uint8_t *names, size_t names_len,
    const uint64_t *name_start, size_t name_start_len,
    const uint64_t *name_len, size_t name_len_len,
    const uint64_t *var_node, size_t var_node_len,
    const uint64_t *var_width, size_t var_width_len,
    const uint8_t *anames, size_t anames_len,
    const uint64_t *aname_start, size_t aname_start_len,
    const uint64_t *aname_len, size_t aname_len_len,
    const uint64_t *index_width, size_t index_width_len,
    const uint64_t *value_width, size_t value_width_len,
    const uint8_t *fnames, size_t fnames_len,
    const uint64_t *fname_start, size_t fname_start_len,
    const uint64_t *fname_len, size_t fname_len_len,
    const uint64_t *func_width, size_t func_width_len,
    uint8_t *out, size_t out_len);

/*
 * Prints a problem as echo_ext does, but in each assertion every node that is neither variable nor constant, is reached from the root and is
 * used twice or more is bound by let, the lowest node outermost, under the name d and its number: (let ((|d2| T)) B). Uses are
 * counted as for ECHO_SHARED, over all nodes, side entries and roots; a rotation's amount is a use and is not reached. It takes what
 * echo_ext takes.
 *
 * ECHO_SHARED does not occur. In its place a declared name that is a shared node's is ECHO_CLASH. In each assertion the bound terms are
 * checked first, the lowest first and each with its own sort, and then the root. Accepted or refused, the output is as echo_ext says.
 *
 * With the lets unfolded the script says the problem's declarations and trees. Equal scripts mean equal trees; equal trees may have
 * different scripts. A problem without shared nodes is answered as by echo_ext, byte for byte. It needs no more stack than echo_ext.
 *
 * No function tells the length of this script: echo_size speaks of echo_ext. Begin with some length (smt-echo does with 1 MB) and double it
 * until the answer is not ECHO_ROOM; a problem within the limits can need more than a machine has.
 */
struct echo_answer echo_let(
    const uint8_t *nodes, size_t nodes_len,
    const uint8_t *bits, size_t bits_len,
    const uint64_t *side, size_t side_len,
    const uint64_t *roots, size_t roots_len,
    const uint8_t *names, size_t names_len,
    const uint64_t *name_start, size_t name_start_len,
    const uint64_t *name_len, size_t name_len_len,
    const uint64_t *var_node, size_t var_node_len,
    const uint64_t *var_width, size_t var_width_len,
    const uint8_t *anames, size_t anames_len,
    const uint64_t *aname_start, size_t aname_start_len,
    const uint64_t *aname_len, size_t aname_len_len,
    const uint64_t *index_width, size_t index_width_len,
    const uint64_t *value_width, size_t value_width_len,
    const uint8_t *fnames, size_t fnames_len,
    const uint64_t *fname_start, size_t fname_start_len,
    const uint64_t *fname_len, size_t fname_len_len,
    const uint64_t *func_width, size_t func_width_len,
    uint8_t *out, size_t out_len);

/*
 * The map file's lines: one line a root, ended by byte 10, the root as a formula. From the loosest: or; and; bor; bxor; band; == !=;
 * < <= > >= (unsigned); << >> (the logical shift); + -; * / % (unsigned); before an operand ! ~ -. Operators of one level group to the
 * left, and brackets stand only where leaving out a pair would change the tree. All other kinds stand as the SMT-LIB name, then numerals
 * and operands in parentheses, parted by a comma and a blank: extract(7, 0, |x|), select(store(|m|, |i|, |v|), |j|). A call stands as its
 * name before its arguments, |f|(|x|, |y|), and without any as |f|; names and constants are as in the script. The inputs and the refusals
 * are echo_ext's; ECHO_ROOM is about the lines. No roots: length 0. Accepted or refused, the output is as echo_ext says. Twice the length
 * that echo_size tells suffices for the output: what is longer in a line is a comma between arguments, or == in brackets, a byte each. No proof
 * says so.
 *
 * With the problem's declarations a line has one reading, the assertion's tree: with the same declarations, equal lines mean equal trees. It
 * is as recursive as echo_ext, and took up to 357 KB of stack, as measured.
 */
struct echo_answer echo_formulas(
    const uint8_t *nodes, size_t nodes_len,
    const uint8_t *bits, size_t bits_len,
    const uint64_t *side, size_t side_len,
    const uint64_t *roots, size_t roots_len,
    const uint8_t *names, size_t names_len,
    const uint64_t *name_start, size_t name_start_len,
    const uint64_t *name_len, size_t name_len_len,
    const uint64_t *var_node, size_t var_node_len,
    const uint64_t *var_width, size_t var_width_len,
    const uint8_t *anames, size_t anames_len,
    const uint64_t *aname_start, size_t aname_start_len,
    const uint64_t *aname_len, size_t aname_len_len,
    const uint64_t *index_width, size_t index_width_len,
    const uint64_t *value_width, size_t value_width_len,
    const uint8_t *fnames, size_t fnames_len,
    const uint64_t *fname_start, size_t fname_start_len,
    const uint64_t *fname_len, size_t fname_len_len,
    const uint64_t *func_width, size_t func_width_len,
    uint8_t *out, size_t out_len);

/*
 * Tells the size of the script that echo_ext prints, so that the output can be set aside beforehand. It takes the inputs of echo_ext and
 * writes nothing.
 *
 * Accepted: number is ECHO_ACCEPTED, and length is the length of the script: echo_ext accepts with an output of that length or a longer
 * one, and answers ECHO_ROOM with a shorter one; echo_hidden likewise. terms is how many terms the walk over the roots enters: variables, constants and
 * operators, each as often as it stands there. A rotation's amount is none; a select is one, with its index and the index and value of
 * each store. Terms other than variables and constants are no more than there are nodes.
 *
 * Refused: number is 1 to 9 or 12, which echo_ext answers whatever the output, and length and terms are 0.
 *
 * The length is below 2^42 and terms below 2^25, so neither ever wraps. It is not recursive.
 */
struct size_answer echo_size(
    const uint8_t *nodes, size_t nodes_len,
    const uint8_t *bits, size_t bits_len,
    const uint64_t *side, size_t side_len,
    const uint64_t *roots, size_t roots_len,
    const uint8_t *names, size_t names_len,
    const uint64_t *name_start, size_t name_start_len,
    const uint64_t *name_len, size_t name_len_len,
    const uint64_t *var_node, size_t var_node_len,
    const uint64_t *var_width, size_t var_width_len,
    const uint8_t *anames, size_t anames_len,
    const uint64_t *aname_start, size_t aname_start_len,
    const uint64_t *aname_len, size_t aname_len_len,
    const uint64_t *index_width, size_t index_width_len,
    const uint64_t *value_width, size_t value_width_len,
    const uint8_t *fnames, size_t fnames_len,
    const uint64_t *fname_start, size_t fname_start_len,
    const uint64_t *fname_len, size_t fname_len_len,
    const uint64_t *func_width, size_t func_width_len);

/*
 * Tells the fewest roots with which a problem is still refused by the same number. It takes the inputs of echo_ext and writes nothing.
 *
 * The number is echo_ext's with an endless output, whatever it is. With 1 to 7 the positions are the shortest rising list of places in
 * roots whose roots, in that order and alone, give the problem that number: its first position is as early as can be, and then its
 * second. Two always suffice; none are needed where the number does not depend on the roots. With any other number there are none.
 *
 * It is not recursive.
 */
struct fewest_answer fewest_roots(
    const uint8_t *nodes, size_t nodes_len,
    const uint8_t *bits, size_t bits_len,
    const uint64_t *side, size_t side_len,
    const uint64_t *roots, size_t roots_len,
    const uint8_t *names, size_t names_len,
    const uint64_t *name_start, size_t name_start_len,
    const uint64_t *name_len, size_t name_len_len,
    const uint64_t *var_node, size_t var_node_len,
    const uint64_t *var_width, size_t var_width_len,
    const uint8_t *anames, size_t anames_len,
    const uint64_t *aname_start, size_t aname_start_len,
    const uint64_t *aname_len, size_t aname_len_len,
    const uint64_t *index_width, size_t index_width_len,
    const uint64_t *value_width, size_t value_width_len,
    const uint8_t *fnames, size_t fnames_len,
    const uint64_t *fname_start, size_t fname_start_len,
    const uint64_t *fname_len, size_t fname_len_len,
    const uint64_t *func_width, size_t func_width_len);

/*
 * Replays a trace: rows of values, one for each declared variable in table order, each as a number. For each row masks has a number
 * whose bit k is 1 exactly when root k holds where the variables have the row's values, the other bits 0; and counts has at the same
 * place how many of its bits are ones. A row whose count is roots_len is a model of the script that echo_ext prints.
 *
 * Where there is no variable there is one row, and values_len must be 0. With variables and no values there are no rows. Of two entries
 * for one node the first has the value; the other's value has to fit its width all the same. So has the value of a variable that no root
 * reaches; a width above 64 bits takes every value.
 *
 * Accepted: number is ECHO_ACCEPTED, rows is the number of rows, and every element of masks and counts from [rows] on is what it was
 * before the call.
 *
 * Refused: rows is 0, and all elements of masks and counts are 0. More than ECHO_MAX_TRACE_ROOTS roots is ECHO_LIMIT. The order is
 * that of echo_ext but for ECHO_ROOM; then ECHO_WIDE, ECHO_VALUES, and ECHO_ROOM where masks_len or counts_len is below the number of rows.
 *
 * The evaluation of a term is recursive, as echo_ext is, and took up to 309 KB of stack, as measured. The checks are made once, not for each
 * row; nothing is allocated.
 */
struct trace_answer replay_trace(
    const uint8_t *nodes, size_t nodes_len,
    const uint8_t *bits, size_t bits_len,
    const uint64_t *side, size_t side_len,
    const uint64_t *roots, size_t roots_len,
    const uint8_t *names, size_t names_len,
    const uint64_t *name_start, size_t name_start_len,
    const uint64_t *name_len, size_t name_len_len,
    const uint64_t *var_node, size_t var_node_len,
    const uint64_t *var_width, size_t var_width_len,
    const uint8_t *anames, size_t anames_len,
    const uint64_t *aname_start, size_t aname_start_len,
    const uint64_t *aname_len, size_t aname_len_len,
    const uint64_t *index_width, size_t index_width_len,
    const uint64_t *value_width, size_t value_width_len,
    const uint8_t *fnames, size_t fnames_len,
    const uint64_t *fname_start, size_t fname_start_len,
    const uint64_t *fname_len, size_t fname_len_len,
    const uint64_t *func_width, size_t func_width_len,
    const uint64_t *values, size_t values_len,
    uint64_t *masks, size_t masks_len,
    uint64_t *counts, size_t counts_len);

/*
 * The width pass alone: tells whether every node is well formed, and how wide each is. A Bool has width 1 here. index_width and
 * value_width are those of the array table; a select from an array past their end has an index of width 32 and is 8 wide.
 *
 * Accepted: number is ECHO_ACCEPTED, count is the number of nodes, out[i] is the width of node i for each i below count, and every
 * element of out from out[count] on is what it was before the call.
 *
 * Refused: number is 1, 8, 9, 10 or 12, and all out_len elements of out are 0. With ECHO_MALFORMED count is the number of the first
 * node that is not well formed, or the number of nodes where index_width and value_width differ in length; with the others count is 0.
 * The order is 9, 8, 1 (columns), 12, 1 (a node), 10.
 *
 * It is not recursive.
 */
struct width_answer ext_wf(
    const uint8_t *nodes, size_t nodes_len,
    const uint8_t *bits, size_t bits_len,
    const uint64_t *side, size_t side_len,
    const uint64_t *index_width, size_t index_width_len,
    const uint64_t *value_width, size_t value_width_len,
    uint64_t *out, size_t out_len);

/*
 * The first script in a file that joins scripts with nothing between them: file[0] to file[length - 1]. Call again with what follows it.
 *
 * A script ends with its check-sat line. That is a whole line: `(check-sat)` and byte 10, at the start of the file or after byte 10. With
 * found 0 the file has no such line. Any bytes are answered, also such as no printer wrote; only lines are looked at.
 *
 * No script that echo_ext prints is the beginning of a longer one, so that a file of scripts is cut in one way. The time is by length, or
 * by file_len where there is no such line; it is not recursive.
 *
 * file is not null, also where file_len is 0, as after the last script: the address just past it will do.
 */
struct script_answer next_script(const uint8_t *file, size_t file_len);

/*
 * Reads a script back into a problem: its nodes, bits, side entries, roots and tables, in eighteen outputs that are the inputs of echo_ext
 * in its order. Outputs as long as the limits above always suffice.
 *
 * Accepted: number is ECHO_ACCEPTED, each output begins with its part of the problem, as long as the answer says, and every element past
 * that is what it was before the call. echo_ext prints the problem as the same script, byte for byte.
 *
 * Refused: all elements of all outputs are 0. The order is
 *
 *   ECHO_NO_SCRIPT    the bytes are no problem's script: other white space, a comment, a leading zero, declare-fun for a variable, another
 *                     logic line than the printer's, an operator with other operands than it takes, a name that the printer refuses, ..
 *   ECHO_LIMIT        the rebuilt problem is over a limit, or a number of it does not fit the 32 bits of its record
 *   ECHO_ROOM         an output is shorter than its part
 *
 * A script does not tell which problem it was printed from, so the nodes are placed by a rule: the variables in the order of their
 * declarations; then for each function in order that no assertion calls a call on zeros; then the terms, each as its last operand ends. Equal
 * constants, of one width and the same bits, are one node; the amount of a rotation is a constant as wide as the rotation. A new constant
 * stands just before the first term, in the order of nodes, that uses it, several for one term in the order of the script. Bits, side
 * entries and names follow the nodes and tables without gaps; an empty list starts at the end so far.
 *
 * script is not null, also where script_len is 0, and neither is an output of length 0.
 *
 * Stack: reading is recursive, and ECHO_NO_SCRIPT comes before ECHO_LIMIT, so that a script nested deeply is read to its end. 2 MB suffice for
 * a script that is no deeper than ECHO_MAX_SCRIPT_DEPTH, as every script is that is accepted. A deeper one takes up to 20 bytes for each of its
 * own: echo_read_stack(script_len) suffices for any script. So who takes files from strangers asks echo_script_depth first, and turns a deeper
 * script away without the call, or calls on a thread with so much. This is measured; the proofs say nothing about the stack.
 */
struct read_answer read_script(
    const uint8_t *script, size_t script_len,
    uint8_t *nodes, size_t nodes_len,
    uint8_t *bits, size_t bits_len,
    uint64_t *side, size_t side_len,
    uint64_t *roots, size_t roots_len,
    uint8_t *names, size_t names_len,
    uint64_t *name_start, size_t name_start_len,
    uint64_t *name_len, size_t name_len_len,
    uint64_t *var_node, size_t var_node_len,
    uint64_t *var_width, size_t var_width_len,
    uint8_t *anames, size_t anames_len,
    uint64_t *aname_start, size_t aname_start_len,
    uint64_t *aname_len, size_t aname_len_len,
    uint64_t *index_width, size_t index_width_len,
    uint64_t *value_width, size_t value_width_len,
    uint8_t *fnames, size_t fnames_len,
    uint64_t *fname_start, size_t fname_start_len,
    uint64_t *fname_len, size_t fname_len_len,
    uint64_t *func_width, size_t func_width_len);

/* Bytes of stack that suffice for read_script with any script of so many bytes, as measured. */
static inline size_t echo_read_stack(size_t script_len)
{
    return 1500000 + 20 * script_len;
}

/*
 * The most brackets that are open at once in a script. A name stands between bars, and its brackets are none. Any bytes are answered. The
 * pointer may be null where script_len is 0.
 */
static inline size_t echo_script_depth(const uint8_t *script, size_t script_len)
{
    size_t depth = 0;
    size_t most = 0;
    int in_name = 0;
    for (size_t i = 0; i < script_len; i++) {
        if (script[i] == '|') {
            in_name = !in_name;
        } else if (!in_name && script[i] == '(') {
            depth++;
            most = depth > most ? depth : most;
        } else if (!in_name && script[i] == ')' && depth > 0) {
            depth--;
        }
    }
    return most;
}

/*
 * Tells whether each name has one meaning in a release: a file of up to ECHO_MAX_SCRIPTS scripts with nothing between them, as `cat` joins
 * them. next_script has what a script's end is; the scripts are told by their numbers, from 0.
 *
 * Accepted: number is ECHO_ACCEPTED and script is 0. Then read_script reads every script of the file, and any two declarations of one name, in
 * whichever scripts, are the same: a variable of one width; an array of the same two widths; a function of the same width whose arguments have the
 * same widths in order. A variable and a function without arguments are not the same. Names are the same if all their bytes are. An
 * empty file is accepted.
 *
 * Refused: the first of these that is so decides, and script says where to look.
 *
 *   ECHO_LIMIT           there are more than ECHO_MAX_SCRIPTS check-sat lines; script is ECHO_MAX_SCRIPTS, and no script was read
 *   ECHO_NO_SCRIPT or    the scripts are read in order, and this is what reading this one is refused with; those before it are read. Bytes after
 *   ECHO_LIMIT           the last check-sat line are one more script, which is ECHO_NO_SCRIPT. Names have not been compared then
 *   ECHO_TWO_MEANINGS    every script is read, and this is the earliest that declares a name otherwise than one before it. To find the name, take
 *                        the declarations of this script and of those before it: a declaration is a line that begins with `(declare-`, its
 *                        name stands between the first two bars, and two lines of one name that differ are the two meanings
 *
 * Which of the two is wrong it cannot know. `smt-echo release` tells the name, both lines and both scripts.
 *
 * file is not null, also where file_len is 0: hand in any byte's address then. It is only read, and there is no output.
 *
 * Stack: reading is recursive here too. 2 MB suffice for a file in which no script is deeper than ECHO_MAX_SCRIPT_DEPTH, as in every file that
 * is accepted; for any other echo_release_stack of the longest script's length (that of the file will do). So who takes files from strangers
 * asks echo_release_depth first, and turns a file with a deeper script away without the call, or calls on a thread with so much. This is
 * measured.
 */
struct release_answer check_release(const uint8_t *file, size_t file_len);

/* Bytes of stack that suffice for check_release with any file whose longest script has so many bytes, as measured. */
static inline size_t echo_release_stack(size_t longest)
{
    return 2200000 + 20 * longest;
}

/*
 * The depth of the deepest script of a file of scripts, by echo_script_depth. What follows the last check-sat line is no script. Any bytes are
 * answered. The pointer may be null where file_len is 0.
 */
static inline size_t echo_release_depth(const uint8_t *file, size_t file_len)
{
    size_t most = 0;
    size_t at = 0;
    while (at < file_len) {
        const struct script_answer next = next_script(file + at, file_len - at);
        if (next.found == 0) {
            break;
        }
        const size_t length = next.length;
        const size_t depth = echo_script_depth(file + at, length);
        most = depth > most ? depth : most;
        at += length;
    }
    return most;
}

/*
 * Shorter records: the kind byte of each node and then only the operands that its kind has, each a little-endian number of 4 bytes. The
 * list of kinds above says which operands a kind has; they are the first ones of its record.
 *
 * shorten_records turns records of ECHO_NODE_BYTES bytes into these, lengthen_records turns these into records. Either way round gives back
 * the bytes begun with. The shorter form has 1 byte a node and 4 an operand, and is never longer than the other.
 *
 * Accepted: number is ECHO_ACCEPTED, out[0] to out[length - 1] is the result, and every element of out from out[length] on is what it was
 * before the call.
 *
 * Refused: length is 0, and all out_len elements of out are 0. The numbers are, in this order:
 *
 *   shorten_records    ECHO_LIMIT: old_len is above ECHO_MAX_NODES_LEN.
 *                      ECHO_ENCODING: no whole number of records, a kind above 38, or an operand that the kind does not have is not 0.
 *                      ECHO_ROOM: the result is longer than the output.
 *   lengthen_records   ECHO_LIMIT: bytes go on after ECHO_MAX_NODES whole records, whatever they are.
 *                      ECHO_SHORT_RECORD: before that, the bytes end inside a record, or a kind is above 38.
 *                      ECHO_ROOM: the result is longer than the output.
 *
 * Neither is recursive. As above no pointer is null, also where its number of bytes is 0.
 */
struct record_answer shorten_records(
    const uint8_t *old_nodes, size_t old_len,
    uint8_t *out, size_t out_len);

struct record_answer lengthen_records(
    const uint8_t *new_nodes, size_t new_len,
    uint8_t *out, size_t out_len);

/*
 * A problem as one thing: the slices that echo_ext takes, under the same names. The functions below take it and call the plain ones. Here
 * a pointer may be null where its number of elements is 0, that of an output too, but not the pointer to the struct; all else is as the plain
 * functions ask and answer. A struct of zeros is the empty problem: `= {0}` in C, `= {}` in C++.
 */
struct echo_problem {
    const uint8_t *nodes;
    size_t nodes_len;
    const uint8_t *bits;
    size_t bits_len;
    const uint64_t *side;
    size_t side_len;
    const uint64_t *roots;
    size_t roots_len;
    const uint8_t *names;
    size_t names_len;
    const uint64_t *name_start;
    size_t name_start_len;
    const uint64_t *name_len;
    size_t name_len_len;
    const uint64_t *var_node;
    size_t var_node_len;
    const uint64_t *var_width;
    size_t var_width_len;
    const uint8_t *anames;
    size_t anames_len;
    const uint64_t *aname_start;
    size_t aname_start_len;
    const uint64_t *aname_len;
    size_t aname_len_len;
    const uint64_t *index_width;
    size_t index_width_len;
    const uint64_t *value_width;
    size_t value_width_len;
    const uint8_t *fnames;
    size_t fnames_len;
    const uint64_t *fname_start;
    size_t fname_start_len;
    const uint64_t *fname_len;
    size_t fname_len_len;
    const uint64_t *func_width;
    size_t func_width_len;
};

/* What the calls below hand over for a slice: the pointer, or that of some element where there are none. */
static inline const uint8_t *echo_lent_bytes(const uint8_t *bytes, size_t len)
{
    static const uint8_t none = 0;
    return len == 0 ? &none : bytes;
}

static inline const uint64_t *echo_lent_numbers(const uint64_t *numbers, size_t len)
{
    static const uint64_t none = 0;
    return len == 0 ? &none : numbers;
}

/* The same for outputs. Nobody reads or writes the element that stands for none. */
static inline uint8_t *echo_lent_out(uint8_t *out, size_t len)
{
    static uint8_t none = 0;
    return len == 0 ? &none : out;
}

static inline uint64_t *echo_lent_numbers_out(uint64_t *out, size_t len)
{
    static uint64_t none = 0;
    return len == 0 ? &none : out;
}

#define ECHO_LENT_PROBLEM(p) \
    echo_lent_bytes(p->nodes, p->nodes_len), p->nodes_len, \
    echo_lent_bytes(p->bits, p->bits_len), p->bits_len, \
    echo_lent_numbers(p->side, p->side_len), p->side_len, \
    echo_lent_numbers(p->roots, p->roots_len), p->roots_len, \
    echo_lent_bytes(p->names, p->names_len), p->names_len, \
    echo_lent_numbers(p->name_start, p->name_start_len), p->name_start_len, \
    echo_lent_numbers(p->name_len, p->name_len_len), p->name_len_len, \
    echo_lent_numbers(p->var_node, p->var_node_len), p->var_node_len, \
    echo_lent_numbers(p->var_width, p->var_width_len), p->var_width_len, \
    echo_lent_bytes(p->anames, p->anames_len), p->anames_len, \
    echo_lent_numbers(p->aname_start, p->aname_start_len), p->aname_start_len, \
    echo_lent_numbers(p->aname_len, p->aname_len_len), p->aname_len_len, \
    echo_lent_numbers(p->index_width, p->index_width_len), p->index_width_len, \
    echo_lent_numbers(p->value_width, p->value_width_len), p->value_width_len, \
    echo_lent_bytes(p->fnames, p->fnames_len), p->fnames_len, \
    echo_lent_numbers(p->fname_start, p->fname_start_len), p->fname_start_len, \
    echo_lent_numbers(p->fname_len, p->fname_len_len), p->fname_len_len, \
    echo_lent_numbers(p->func_width, p->func_width_len), p->func_width_len

/* echo_ext: prints a problem. */
static inline struct echo_answer echo_problem_print(const struct echo_problem *p, uint8_t *out, size_t out_len)
{
    return echo_ext(ECHO_LENT_PROBLEM(p), echo_lent_out(out, out_len), out_len);
}

/* echo_hidden: prints a problem with zeros for its constants. */
static inline struct echo_answer echo_problem_hidden(const struct echo_problem *p, uint8_t *out, size_t out_len)
{
    return echo_hidden(ECHO_LENT_PROBLEM(p), echo_lent_out(out, out_len), out_len);
}

/* echo_let: prints a problem with shared terms bound by let. */
static inline struct echo_answer echo_problem_let(const struct echo_problem *p, uint8_t *out, size_t out_len)
{
    return echo_let(ECHO_LENT_PROBLEM(p), echo_lent_out(out, out_len), out_len);
}

/* echo_formulas: writes the roots of a problem as the lines of a map file. */
static inline struct echo_answer echo_problem_formulas(const struct echo_problem *p, uint8_t *out, size_t out_len)
{
    return echo_formulas(ECHO_LENT_PROBLEM(p), echo_lent_out(out, out_len), out_len);
}

/* echo_size: the length of a problem's script, and how many terms the walk enters. */
static inline struct size_answer echo_problem_size(const struct echo_problem *p)
{
    return echo_size(ECHO_LENT_PROBLEM(p));
}

/* fewest_roots: the fewest roots with which a problem is still refused by the same number. */
static inline struct fewest_answer echo_problem_fewest(const struct echo_problem *p)
{
    return fewest_roots(ECHO_LENT_PROBLEM(p));
}

/* replay_trace: which roots of a problem hold on each row of values. */
static inline struct trace_answer echo_problem_replay(
    const struct echo_problem *p, const uint64_t *values, size_t values_len,
    uint64_t *masks, size_t masks_len, uint64_t *counts, size_t counts_len)
{
    return replay_trace(
        ECHO_LENT_PROBLEM(p),
        echo_lent_numbers(values, values_len), values_len,
        echo_lent_numbers_out(masks, masks_len), masks_len,
        echo_lent_numbers_out(counts, counts_len), counts_len);
}

/* ext_wf: the width of each node of a problem. */
static inline struct width_answer echo_problem_widths(const struct echo_problem *p, uint64_t *out, size_t out_len)
{
    return ext_wf(
        echo_lent_bytes(p->nodes, p->nodes_len), p->nodes_len,
        echo_lent_bytes(p->bits, p->bits_len), p->bits_len,
        echo_lent_numbers(p->side, p->side_len), p->side_len,
        echo_lent_numbers(p->index_width, p->index_width_len), p->index_width_len,
        echo_lent_numbers(p->value_width, p->value_width_len), p->value_width_len,
        echo_lent_numbers_out(out, out_len), out_len);
}

#undef ECHO_LENT_PROBLEM

#ifdef __cplusplus
}
#endif

#endif
