#!/bin/sh
# Builds the map program: the proved library as the archive libmapping.a beside it, and map.c with it. build.sh PROGRAM [FLAGS of the C compiler]
set -eu
cd "$(dirname "$0")/.."
kit=$(dirname "$(rt doc)")
program=$1
archive=$(dirname "$program")/libmapping.a
shift
(cd crates/mapping_c && rt lib >/dev/null)
cp crates/mapping_c/out/libmapping_c.a "$archive"
cc -std=c99 -Wall -Wextra -Werror -O2 "$@" -o "$program" c/map.c "$archive" "$kit/c/liblibc_c.a"
