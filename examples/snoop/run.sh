#!/bin/sh
# What a push over the simulated radio looks like to tshark and btmon:
#
#     run.sh BTPUSH
#
# BTPUSH is the program, as crates/btpush/out/btpush. The push of examples/push is run, the packets of
# each of its hosts are written as a btsnoop file, and each packet is compared with what tshark and
# btmon read; either is left out where it is not installed. Status 0: all is the same.
set -eu
btpush=$(realpath "$1")
here=$(dirname "$(realpath "$0")")
folder=$(mktemp -d)
trap 'rm -rf "$folder"' EXIT
cp "$here"/../push/* "$folder"
mkdir "$folder/inbox"
cd "$folder"
"$btpush" push < one_card.txt > report 2> capture
for side in a b; do
    "$btpush" snoop --side $side < capture > host_$side.btsnoop
    "$btpush" decode --snoop < host_$side.btsnoop | grep -c '^[0-9]' | sed "s/^/host $side: lines of packets: /"
    python3 "$here/compare.py" host_$side.btsnoop
done
