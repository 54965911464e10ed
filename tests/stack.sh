#!/bin/sh
# How much stack a formula takes, however long it is: tests/stack.sh [standin]. Its status is 0 if none takes more than 16 parentheses do.
set -eu
cd "$(dirname "$0")/.."
. tests/library.sh
choose_library "${1:-archive}"
flags="$flags -std=c11 -D_POSIX_C_SOURCE=200809L -pthread"
build stack tests/stack.c
$runner "$out/stack"
