#!/bin/sh
# Runs the program that is installed, or unpacked, beside this command. NOT PROVED; it trusts the folders in which `make install` put things.
#
#     polylab count soma-cube.puzzle
#
# A file among the words is the program's standard input, and `polylab explain` is polylab-explain (../lib/polylab/given.sh). All else is the
# program's own, and so are its statuses.
set -eu
self=$(readlink -f "$0")
lib=$(dirname "$(dirname "$self")")/lib/polylab
program=$lib/polylab stamp=$lib/built slices=polylab-slices watcher=$(dirname "$self")/polylab-slices explain=$(dirname "$self")/polylab-explain
# shellcheck source=tools/given.sh
. "$lib/given.sh"
start "$@"
