#!/bin/sh
# run.sh: octets a second through two machines of enhanced retransmission mode in memory, beside plain
# Rust of the same rules. It builds a crate in a folder of its own, which it removes. Needs rt and rustc.
set -e
here=$(cd "$(dirname "$0")" && pwd)
top=$(cd "$here/../../.." && pwd)
work=$(mktemp -d)
trap 'rm -rf "$work"' EXIT
mkdir -p "$work/repository/crates"
cd "$work/repository"
git init -q .
for crate in bt_base check_words ertm_frames l2cap_config ertm_model ertm_machine; do
    cp -a "$top/crates/$crate" crates/
    grep "^$crate:" "$top/crates.txt" >> crates.txt
done
. "$here/../beside.sh"
add enhanced_speed 'bt_base ertm_frames l2cap_config ertm_machine'
time_both enhanced_speed
