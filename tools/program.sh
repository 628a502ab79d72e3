#!/bin/sh
# Builds the program of a crate, which proves it and all below it, and leaves it at crates/NAME/out/NAME. program.sh NAME
set -eu
said=$(mktemp)
trap 'rm -f "$said"' EXIT
cd "$(dirname "$0")/../crates/$1"
# a run builds it; this one has the worked example as its argument and as its input
if ! rt run -- ../../examples/berm.net <../../examples/berm.net >"$said" 2>&1; then
    cat "$said" >&2
    echo "$1 is not built" >&2
    exit 1
fi
