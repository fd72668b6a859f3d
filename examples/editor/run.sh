#!/bin/sh
# Proves the library of turns, links the editor's example with it and runs the example.
set -eu

here=$(cd "$(dirname "$0")" && pwd)
root=$(cd "$here/../.." && pwd)
cd "$root"

(cd crates/turns_c && rt lib)
mkdir -p target/examples target/staticlib
cp crates/turns_c/out/libturns_c.a target/staticlib/libturns.a
cc -std=c99 -Wall -Wextra -Werror -O2 -I include \
    -o target/examples/editor examples/editor/editor.c target/staticlib/libturns.a
target/examples/editor
