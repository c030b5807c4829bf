#!/bin/sh
# build.sh REPOSITORY CRATE OUT: an optimized build of a program for counting its instructions, without any proof, in two minutes.
# Never hand such a program to anyone: it doesn't say that it isn't proved. Those of tools/build.py do.
exec python3 -B "$(dirname "$0")/../../tools/building/lowering.py" "$1" "$2" "$3"
