#!/bin/sh
# Builds the archive for C and Rust, runs both examples and compares what they print with examples/expected.txt, and runs the tests of
# the declarations. It needs the Rattle toolchain, a C compiler (cc, or what CC names), nm and cargo, and no network. Its last line says
# that all passed.
set -eu
cd "$(dirname "$0")/.."
cc=${CC:-cc}
flags="-std=c99 -Wall -Wextra -Wpedantic -Werror -O2 -Iinclude"
made=target/interface
archive=crates/figdawesa/out/libfigdawesa.a
export CARGO_TARGET_DIR="$PWD/target/rust"

echo "interface: proving and building $archive; from nothing this takes about half an hour"
mkdir -p "$made"
(cd crates/figdawesa && rt lib) >"$made/lib.out" 2>&1 || {
    cat "$made/lib.out"
    exit 1
}

# The archive defines the twenty calls, and no other name that a program could meet.
nm -g --defined-only "$archive" | awk 'NF == 3 { print $3 }' | sort >"$made/calls"
both="answer evaluate judge judge_day judge_set read sheet_of text_of write"
{
    printf 'figdawesa_%s\n' line own_table $both
    printf 'figdawesa_%s_by_table\n' $both
} | sort | diff - "$made/calls"

# What it leaves to the program that links it is what the header says, and no more.
nm -u "$archive" | awk 'NF == 2 { print $2 }' | sort -u >"$made/needs"
printf '%s\n' memcpy memmove memset | diff - "$made/needs"
echo "interface: the archive defines the twenty calls, and needs memcpy, memmove and memset alone"

# The examples.
$cc $flags examples/cover.c "$archive" -o "$made/cover"
"$made/cover" >"$made/cover.c.out"
diff examples/expected.txt "$made/cover.c.out"
echo "interface: the example in C printed what it should"
(cd rust && cargo run --quiet --locked --offline --example cover) >"$made/cover.rs.out"
diff examples/expected.txt "$made/cover.rs.out"
echo "interface: the example in Rust printed what it should"

# The declarations.
$cc $flags tests/interface.c "$archive" -o "$made/interface"
"$made/interface"
(cd rust && cargo test --quiet --locked --offline --tests)

echo "interface: all passed"
