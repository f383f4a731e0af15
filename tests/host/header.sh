#!/bin/sh
# Holds the header to the code, the reference and the archive, and the example of a host to the reference: its inline functions are compiled as
# C99 and as C++17 with sanitizers; examples/card.c both ways as its own script does, and with sanitizers too.
set -eu
root=$(cd "$(dirname "$0")/../.." && pwd)
cd "$root"
mkdir -p target/host
flags="-Wall -Wextra -Wpedantic -Wconversion -Wsign-conversion -Wshadow -Werror -O1 -g -fsanitize=address,undefined -fno-sanitize-recover=all -I include"
cc -std=c99 $flags tests/host/records.c -o target/host/records
c++ -std=c++17 $flags -x c++ tests/host/records.c -o target/host/records++
examples/run.sh
cc -std=c99 $flags examples/card.c target/staticlib/libhypuz_notation.a -o target/host/card
python3 tests/host/header.py target/host/records target/host/records++ -- target/staticlib/libhypuz_notation.a
python3 tests/host/card.py target/examples/card target/examples/card++ target/host/card
