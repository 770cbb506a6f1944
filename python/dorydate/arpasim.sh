#!/bin/sh
# Runs a program on an input that may be named: sh arpasim.sh PROGRAM EXAMPLES [WORD..]. `arpasim` of the wheel and of the package for Debian.
set -u
program=$1
examples=$2
shift 2
called=arpasim
how='dorydate explain'
. "${0%/*}/named.sh"
# (what the program says on standard error is held back, and its output goes straight on)
{
    notes=$("$program" "$@" 2>&1 >&3 3>&-)
    status=$?
} 3>&1
[ -z "$notes" ] || printf '%s\n' "$notes" >&2
[ "$status" -eq 0 ] || cure "$notes" "$@" >&2
exit $status
