#!/bin/sh
# Instructions a call of the port, by function, on the inputs of `bench` (or of `worst`) with WORD in their name:
#   ./profile.sh WORD [COUNT [--hard]]
# Counted by valgrind's callgrind, so that other processes do not matter. `cargo build --release` first.
word=${1:?usage: ./profile.sh WORD [COUNT [--hard]]}
count=${2:-20}
hard=${3:-}
driver=$(dirname "$0")/target/release/driver
folder=$(mktemp -d) || exit 1
trap 'rm -rf "$folder"' EXIT
valgrind --tool=callgrind --callgrind-out-file="$folder/out" \
    --toggle-collect=pemzhulaq_type_union_resolution \
    --toggle-collect=pemzhulaq_type_union_coercion \
    --toggle-collect=pemzhulaq_comparison_coercion \
    "$driver" repeat --only "$word" --count "$count" $hard >"$folder/said" 2>"$folder/log" ||
    { cat "$folder/said" "$folder/log"; exit 1; }
inputs=$(wc -l <"$folder/said")
[ "$inputs" -gt 0 ] || { echo "no input has '$word' in its name"; exit 1; }
cat "$folder/said"
# Each input is asked once more than it is repeated, when its answer is checked.
callgrind_annotate --threshold=99.9 "$folder/out" |
    awk -v calls="$((inputs * (count + 1)))" '
        /PROGRAM TOTALS/ { gsub(",", "", $1); total = $1; next }
        /^ *[0-9,]+ \(/ {
            value = $1
            gsub(",", "", value)
            sub(/^ *[0-9,]+ \( *[0-9.]+%\) +/, "")
            sub(/ *\[.*/, "")
            sub(/^.*\?\?\?:/, "")
            sub(/^.*:__/, "")
            sub(/\x27[0-9]+ *$/, "")
            sub(/ *$/, "")
            sum[$0] += value
        }
        END {
            printf "%12.0f  all, instructions a call\n", total / calls
            for (name in sum) printf "%12.0f  %s\n", sum[name] / calls, name | "sort -rn | head -15"
        }'
