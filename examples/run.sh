#!/bin/sh
# Builds examples/card.c over the archive of this checkout, as C99 and as C++17, and shows the card of a text.
#   examples/run.sh w|m TEXT [PLACE [LAYERS]]
# The programs are target/examples/card and target/examples/card++. Where there is no archive yet, it is made, which takes some minutes.
set -eu
root=$(cd "$(dirname "$0")/.." && pwd)
cd "$root"
archive=target/staticlib/libhypuz_notation.a
[ -f "$archive" ] || tools/archive.sh >&2
mkdir -p target/examples
cc -std=c99 -Wall -Wextra -Wpedantic -Werror -I include examples/card.c "$archive" -o target/examples/card
c++ -std=c++17 -Wall -Wextra -Wpedantic -Werror -I include -x c++ examples/card.c -x none "$archive" -o target/examples/card++
[ $# -eq 0 ] || target/examples/card "$@"
