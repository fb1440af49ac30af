#!/bin/sh
# Builds the peer into peer/build/: the event program, the coverage counter,
# the shared library for check_peer.py and the self-check with sanitizers.
# CC chooses the compiler (cc, gcc, clang); "build.sh check" also runs the
# self-check.
set -e
cd "$(dirname "$0")"
CC=${CC:-cc}
FLAGS="-std=c99 -O2 -Wall -Wextra -Wconversion -pedantic -ffp-contract=off"
mkdir -p build
$CC $FLAGS -o build/events peer.c events.c
$CC $FLAGS -o build/count peer.c count.c
$CC $FLAGS -fPIC -shared -o build/libpeer.so peer.c
$CC $FLAGS -g -fsanitize=address,undefined -fno-sanitize-recover=all -o build/selfcheck peer.c selfcheck.c
if [ "$1" = check ]; then
    build/selfcheck "${2:-1}" "${3:-1000000}"
fi
