#!/bin/sh
# run.sh: seconds for an object of 16,777,215 octets that is pushed from one host to another in memory, with a window of 32 and
# single response mode, beside plain Rust of the same rules. It builds a crate in a folder of its own, which it removes; where
# no check was run before, all below it has to be proved first. Needs rt and rustc.
set -e
here=$(cd "$(dirname "$0")" && pwd)
top=$(cd "$here/../../.." && pwd)
work=$(mktemp -d)
trap 'rm -rf "$work"' EXIT
git clone -q "$top" "$work/repository"
cd "$work/repository"
. "$here/../beside.sh"
add hosts_speed 'bt_base ready_ports object_push'
time_both hosts_speed
