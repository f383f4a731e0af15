#!/bin/sh
# Builds the archive if it is not there, compiles the host programs against it and runs them: host.c with sanitizers, the two large ones on a
# stack of 256 KB.
set -eu
root=$(cd "$(dirname "$0")/../.." && pwd)
cd "$root"
lib=target/staticlib/libhypuz_notation.a
[ -f "$lib" ] || tools/archive.sh
mkdir -p target/host
build="cc -std=c11 -Wall -Wextra -Wpedantic -Werror -O1 -g -I include"
$build -fsanitize=address,undefined -fno-sanitize-recover=all tests/host/host.c "$lib" -o target/host/host
target/host/host
for name in large long; do
    $build tests/host/$name.c "$lib" -o target/host/$name
    (ulimit -s 256; target/host/$name)
done
