#!/usr/bin/env bash
# Measures reading and writing the index of a shard, beside serde_json's own parse and print of the same bytes and one pass
# over them. Each row is an index of FILES files and SNAPS snapshots that have each of them; times are processor time, the
# least and the middle of ROUNDS rounds; memory is the most that a process had which did the job once.
# The program is built in a folder of its own below /tmp, since a gate run reads every .rt file of the repository.
set -euo pipefail
here=$(cd "$(dirname "$0")" && pwd)
crates=$(cd "$here/../../crates" && pwd)
rounds=${ROUNDS:-15}
room=$(mktemp -d /tmp/esr_shardidx_bench.XXXXXX)
trap 'rm -rf "$room"' EXIT

below='esr_seq esr_names esr_json esr_hash esr_shardidx'
for name in $below; do
    mkdir -p "$room/crates/$name"
    for part in src specs proofs; do
        [ ! -d "$crates/$name/$part" ] || cp -r "$crates/$name/$part" "$room/crates/$name/"
    done
    grep "^$name:" "$crates/../crates.txt" >> "$room/crates.txt"
done
echo 'shardidx_bench: esr_shardidx serde_json anyhow' >> "$room/crates.txt"
mkdir -p "$room/crates/shardidx_bench"/{src,specs,proofs}
cp "$here/bench.rt.txt" "$room/crates/shardidx_bench/src/main.rt"
: > "$room/crates/shardidx_bench/specs/Lib.antt"
: > "$room/crates/shardidx_bench/proofs/Lib.antt"
printf '%s\n' 'Handles allowed: none.' > "$room/HANDLES"
(cd "$room/crates/shardidx_bench" && ${RT:-rt} run -- pass 0 /dev/null) > "$room/build.log" 2>&1 || { tail -20 "$room/build.log"; exit 1; }
bench=$room/crates/shardidx_bench/out/shardidx_bench

times() { # job: the least and the middle, in microseconds
    "$bench" "$1" "$rounds" "$room/index" | sed -n 's/^round //p' | sort -n |
        awk '{ t[NR] = $1 } END { printf "%d %d", t[1] / 1000, t[int((NR + 1) / 2)] / 1000 }'
}

memory() { # job: in KiB
    "$bench" "$1" 1 "$room/index" | awk '/^VmHWM/ { print $2 }'
}

ratio() { awk -v a="$1" -v b="$2" 'BEGIN { printf "%.2f", a / b }'; }

row() { # files, snapshots
    awk -v FILES="$1" -v SNAPS="$2" -f "$here/index.awk" > "$room/index"
    local pass parse print read text bytes
    bytes=$(stat -c %s "$room/index")
    read -r -a pass <<< "$(times pass)"
    read -r -a parse <<< "$(times parse)"
    read -r -a print <<< "$(times print)"
    read -r -a read <<< "$(times read)"
    read -r -a text <<< "$(times text)"
    local mem_parse mem_print mem_read mem_text
    mem_parse=$(memory parse) mem_print=$(memory print) mem_read=$(memory read) mem_text=$(memory text)
    printf '| %s | %s | %s | %s / %s | %s / %s | %s / %s | %s / %s | %s / %s | %s | %s |\n' "$1" "$2" "$bytes" \
        "${pass[@]}" "${parse[@]}" "${read[@]}" "${print[@]}" "${text[@]}" \
        "$(ratio "${read[1]}" $((parse[1] + pass[1])))" "$(ratio "${text[1]}" $((print[1] + pass[1])))"
    memories+=("$(printf '| %s | %s | %s | %s | %s | %s | %s | %s |' "$1" "$2" "$mem_parse" "$mem_read" "$(ratio "$mem_read" "$mem_parse")" \
        "$mem_print" "$mem_text" "$(ratio "$mem_text" "$mem_print")")")
}

echo "$(uname -m), $(nproc) processors, $(sed -n 's/^model name[^:]*: //p' /proc/cpuinfo | head -1); load $(cut -d' ' -f1-3 /proc/loadavg)"
rt version | head -1
echo
memories=()
echo '| files | snapshots | bytes | pass µs | parse µs | read µs | print µs | text µs | read / (parse + pass) | text / (print + pass) |'
echo '|---|---|---|---|---|---|---|---|---|---|'
for size in ${SIZES:-1000x1 10000x1 10000x10 100000x1}; do row "${size%x*}" "${size#*x}"; done
echo
echo '| files | snapshots | parse KiB | read KiB | ratio | print KiB | text KiB | ratio |'
echo '|---|---|---|---|---|---|---|---|'
printf '%s\n' "${memories[@]}"
