# beside.sh: what these measures have in common. It is sourced where `here` is the folder of a measure, and `work` one that
# is removed afterwards, in a repository of its own.

# add NAME DEPS: the crate of the measure, under a name of its own, since the gate reads each source that it finds.
add() {
    cp -a "$here/crate" "crates/$1"
    find "crates/$1" -name '*.txt' | while read -r file; do mv "$file" "${file%.txt}"; done
    echo "$1: $2" >> crates.txt
}

# time_both NAME: proves and builds it and builds plain Rust, and runs both three times: what they say, and their user time.
time_both() {
    cd "crates/$1"
    rt run > "$work/proved" 2> "$work/log" || { tail -20 "$work/log"; exit 1; }
    rustc -O -o "$work/plain" "$here/plain.rs"
    for run in 1 2 3; do
        for which in "out/$1" "$work/plain"; do
            /usr/bin/time -f '%U' "$which" > "$work/said" 2> "$work/seconds"
            echo "$(basename "$which"): $(cat "$work/said"), in $(cat "$work/seconds") s"
        done
    done
}
