#!/usr/bin/env python3
"""The boundary's calls for C and for Rust, from the library's own sources.

    boundary.py --write    writes bindings/c/rugxeni.h and bindings/rust/src/ffi/calls.rs
    boundary.py --check    compares them with what it would write

Signatures and comments are those of crates/rugxeni/src, the refusals those of crates/refusals; least lengths and limits are read from docs/BUFFERS.md
and docs/FORMAT.md. It fails where a signature has a type that is not known, a call has no comment or none says what it returns, or a slice has no
least length."""
import os
import sys
import textwrap

import boundary_sources as sources

ROOT = os.path.join(os.path.dirname(os.path.abspath(__file__)), "..")
sys.path.insert(0, os.path.join(ROOT, "tests"))
import generated  # noqa: E402

HEADER = "bindings/c/rugxeni.h"
RUST = "bindings/rust/src/ffi/calls.rs"
BY_SCRIPT = "Written by `python3 bindings/boundary.py --write`; the gate compares."
COMMENT_WIDTH = 120
RUSTFMT_WIDTH = 100

C_HEAD = f"""\
/* The boundary of the static library, for C and C++.
 * {BY_SCRIPT}
 *
 * A slice goes over as a pointer and a length in elements: `run, run_len`. One that is not const is written, and must
 * overlap no other slice of the call. Nothing else is asked of the slices: contents and lengths may be any, and every call
 * answers. One of length 0 may be NULL. The comment beside a slice is its least length, m, a, g and t being the sheet's
 * instances, accounts, registers and transactions; a shorter one is answered with RUGXENI_BUFFER_SHORT, unless another
 * refusal stands there. The library owns no memory and keeps nothing between calls.
 *
 * Every call returns 0 where it did what it says, a refusal's number, or 255 where nothing is left: no byte to be read, or
 * no frame of the sheet to be loaded. What is refused changes nothing but `told`.
 *
 * `told` gets two numbers, as far as it is long: a refusal's place, or what the call tells in its stead (where the next
 * frame begins, how much was written), else 0; then a reading's value or a frame's kind, else 0.
 *
 * `numbers` are the 22 that a ledger is: m, a, g, t, the stage of loading, the transactions loaded, and the accepted
 * blocks of sixteen instances. All 0 they are a fresh ledger. `sheet`, `ranks`, `cuts`, `cites` and `good` belong to it:
 * each call is lent what the one before it left there. `counts`, `table` and `order` are working space.
 */
#ifndef RUGXENI_H
#define RUGXENI_H

#include <stddef.h>
#include <stdint.h>

#ifdef __cplusplus
extern "C" {{
#endif
"""
C_NAMES = """\
/* Settlements, as `statuses` has them. */
enum rugxeni_settlement { RUGXENI_OPEN = 0, RUGXENI_PAID = 1, RUGXENI_RETURNED = 2 };

/* Kinds of a transaction, and codes of its operations. */
enum rugxeni_kind { RUGXENI_PAYMENT = 0, RUGXENI_CONTRACT = 1 };
enum rugxeni_code { RUGXENI_IS_EQUAL = 0, RUGXENI_IS_AT_LEAST = 1, RUGXENI_SET = 2, RUGXENI_ADD = 3, RUGXENI_SUBTRACT = 4 };
"""
C_FOOT = """\
#ifdef __cplusplus
}
#endif

#endif"""
C_TYPE = {"u8": "uint8_t", "u16": "uint16_t", "u32": "uint32_t", "u64": "uint64_t", "usize": "size_t"}

RUST_HEAD = f"""\
// {BY_SCRIPT}
//! The boundary's calls over slices: their declarations, and for each a safe function.
//!
//! A slice goes over as a pointer and a length. The library asks nothing of its arguments but that the slices are valid and
//! that one which it writes overlaps no other; references have both of themselves. Contents and lengths are unconstrained:
//! every call answers on any of them.

#![allow(unsafe_code)]
#![allow(clippy::too_many_arguments)]
"""
SAFETY = "// SAFETY: each pair is a live reference's pointer and length, and the `&mut` ones overlap no other."


def wrapped(paragraphs, first, rest):
    """Paragraphs as lines of a comment, an empty one between two."""
    lines = []
    for paragraph in paragraphs:
        lines += [rest.rstrip()] if lines else []
        lines += textwrap.wrap(paragraph, COMMENT_WIDTH, initial_indent=rest if lines else first, subsequent_indent=rest)
    return lines


def each(of, call):
    return [part for parameter in call.parameters for part in of(parameter)]


# C


def c_comment(indent, paragraphs):
    lines = wrapped(paragraphs, f"{indent}/* ", f"{indent} * ")
    return [*lines[:-1], f"{lines[-1]} */"]


def c_answers():
    """The answers of all calls, as one enum."""
    yield "enum rugxeni_answer {"
    yield "    RUGXENI_DONE = 0,"
    for number, name, meaning in sources.refusals():
        yield from c_comment("    ", [meaning])
        yield f"    RUGXENI_{name} = {number},"
    yield "    RUGXENI_NOTHING_LEFT = 255"
    yield "};"


def c_parameter(p):
    kind = C_TYPE[p.element]
    return f"{'' if p.is_written else 'const '}{kind} *{p.name}, size_t {p.name}_len" if p.is_slice else f"{kind} {p.name}"


def c_call(call):
    last = call.parameters[-1]
    written = [(c_parameter(p) + (");" if p is last else ","), p.least) for p in call.parameters]
    width = max(len(text) for text, least in written if least)
    yield ""
    yield from c_comment("", call.comment)
    yield f"uint16_t {call.name}("
    for text, least in written:
        yield f"    {text:<{width}} /* {least} */" if least else f"    {text}"


def c_lines(calls, constants):
    yield C_HEAD
    yield from c_answers()
    yield ""
    yield C_NAMES
    yield "/* Sizes. Those of buffers suffice for every sheet. */"
    for name, value, meaning in constants:
        yield f"#define RUGXENI_{name} {value} /* {meaning} */"
    for call in calls:
        yield from c_call(call)
    yield ""
    yield C_FOOT


# Rust


def fitted(indent, before, items, after):
    """A list in parentheses as rustfmt leaves it: on one line where it has room, else each item on its own."""
    line = f"{indent}{before}({', '.join(items)}){after}"
    if len(line) <= RUSTFMT_WIDTH:
        return [line]
    return [f"{indent}{before}(", *(f"{indent}    {item}," for item in items), f"{indent}){after}"]


def rust_declared(p):
    return [f"{p.name}: *{'mut' if p.is_written else 'const'} {p.element}", f"{p.name}_len: usize"] if p.is_slice else [f"{p.name}: {p.element}"]


def rust_lent(p):
    return [f"{p.name}: &{'mut ' if p.is_written else ''}[{p.element}]" if p.is_slice else f"{p.name}: {p.element}"]


def rust_handed(p):
    return [f"{p.name}.as_{'mut_' if p.is_written else ''}ptr()", f"{p.name}.len()"] if p.is_slice else [p.name]


def rust_call(call):
    least = "; ".join(f"`{p.name}` {p.least}" for p in call.parameters if p.is_slice)
    yield ""
    yield from wrapped([*call.comment, f"Least lengths: {least}."], "/// ", "/// ")
    yield from fitted("", f"pub fn {call.name.removeprefix(sources.PREFIX)}", each(rust_lent, call), " -> u16 {")
    yield f"    {SAFETY}"
    yield "    unsafe {"
    yield f"        {call.name}("
    for argument in each(rust_handed, call):
        yield f"            {argument},"
    yield "        )"
    yield "    }"
    yield "}"


def rust_lines(calls):
    yield RUST_HEAD
    yield 'extern "C" {'
    for call in calls:
        yield from fitted("    ", f"fn {call.name}", each(rust_declared, call), " -> u16;")
    yield "}"
    for call in calls:
        yield from rust_call(call)


def main(word):
    lengths = sources.Lengths()
    calls = sources.all_calls(lengths)
    files = {HEADER: c_lines(calls, sources.constants(lengths)), RUST: rust_lines(calls)}
    return max(generated.put(path, "\n".join(lines) + "\n", word) for path, lines in files.items())


if __name__ == "__main__":
    if sys.argv[1:] not in (["--write"], ["--check"]):
        sys.exit(__doc__)
    os.chdir(ROOT)
    try:
        sys.exit(main(sys.argv[1]))
    except sources.Wrong as wrong:
        sys.exit(f"boundary.py: {wrong}")
