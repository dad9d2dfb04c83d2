#!/bin/sh
# run.sh: seconds for 100,000, 200,000 and 400,000 units over a three-wire line that loses a quarter of
# its packets, each run's output compared with its input. It builds a crate in a folder of its own,
# which it removes. Needs rt.
set -e
here=$(cd "$(dirname "$0")" && pwd)
top=$(cd "$here/../../.." && pwd)
work=$(mktemp -d)
trap 'rm -rf "$work"' EXIT
mkdir -p "$work/repository/crates"
cd "$work/repository"
git init -q .
for crate in bt_base ready_ports h4_framing draws wire_packets wire_model three_wire; do
    cp -a "$top/crates/$crate" crates/
    grep "^$crate:" "$top/crates.txt" >> crates.txt
done
. "$here/../beside.sh"
add three_wire_speed 'ready_ports three_wire'
cd crates/three_wire_speed
rt run < /dev/null > "$work/proved" 2> "$work/log" || { tail -20 "$work/log"; exit 1; }
for units in 100000 200000 400000; do
    yes '' | head -n "$units" | awk '{ printf "\001\003\014%c", 0 }' > "$work/units"
    /usr/bin/time -f '%U' -o "$work/seconds" out/three_wire_speed < "$work/units" > "$work/carried" 2> "$work/trace"
    cmp "$work/units" "$work/carried"
    echo "$units units, $(wc -c < "$work/trace") octets of trace: $(cat "$work/seconds") s"
done
