#!/bin/sh
# Runs the program: ./iss replay < rows/basics/first-run, or ./iss lab 1 1000. docs/SCHEDULES.md has all commands.
# It is the proved build where that is newer than all sources. Otherwise it is one without proof, which is built once
# and kept (tools/program).
# Exit status: the program's own (docs/SCHEDULES.md), or 70 where no program could be built.
top=$(dirname "$(readlink -f "$0")")
if [ $# -eq 0 ] || [ "$1" = --help ] || { [ $# -eq 2 ] && [ -f "$2" ]; }; then
    echo "usage: ./iss COMMAND < FILE (for example ./iss replay < rows/basics/first-run; see docs/SCHEDULES.md)" >&2
fi
program=$("$top/tools/program" iss < /dev/null) || exit 70
exec "$program" "$@"
