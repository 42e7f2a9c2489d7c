#!/usr/bin/env bash
# Measures what a turn costs with no other thread at the lock, beside a mutex: the turn lock of esr_turns, Rattle's
# std::sync::Mutex, and Rust's. Each program takes its lock ten million times in one thread, and is run ROUNDS times.
# The programs are built in a folder of their own below /tmp, since a gate run reads every .rt file of the repository.
set -euo pipefail
here=$(cd "$(dirname "$0")" && pwd)
crates=$(cd "$here/../../crates" && pwd)
rounds=${ROUNDS:-7}
turns=10000000
room=$(mktemp -d /tmp/esr_turns_bench.XXXXXX)
trap 'rm -rf "$room"' EXIT

program() { # name, source
    mkdir -p "$room/crates/$1"/{src,specs,proofs}
    cp "$here/$2" "$room/crates/$1/src/main.rt"
    : > "$room/crates/$1/specs/Lib.antt"
    : > "$room/crates/$1/proofs/Lib.antt"
}

mkdir -p "$room/crates/esr_turns"
for part in src specs proofs; do cp -r "$crates/esr_turns/$part" "$room/crates/esr_turns/"; done
program turns_bench lock.rt.txt
program mutex_bench mutex.rt.txt
mkdir -p "$room/crates/turns_bench/proofs/take_turns"
cp "$here/invariant.antt.txt" "$room/crates/turns_bench/proofs/take_turns/Invariants.antt"
cp "$here/counts.antt.txt" "$room/crates/turns_bench/proofs/Counts.antt"
echo 'pub mod Counts' > "$room/crates/turns_bench/proofs/Lib.antt"
printf '%s\n' 'Handles allowed: Threads, Wait.' > "$room/HANDLES"
printf '%s\n' 'esr_turns: atomic_table' 'turns_bench: esr_turns' 'mutex_bench:' > "$room/crates.txt"

for name in turns_bench mutex_bench; do
    (cd "$room/crates/$name" && rt run) > "$room/$name.log" 2>&1 || { tail -20 "$room/$name.log"; exit 1; }
done
rustc -O -o "$room/mutex" "$here/mutex.rs"

measure() { # what, program: the least and the middle of the rounds, in nanoseconds a turn
    local times=() start end
    for _ in $(seq "$rounds"); do
        start=$(date +%s%N)
        "$2"
        end=$(date +%s%N)
        times+=($(((end - start) * 10 / turns)))
    done
    mapfile -t times < <(printf '%s\n' "${times[@]}" | sort -n)
    local least=${times[0]} middle=${times[$((rounds / 2))]}
    printf '| %-38s | %6s | %6s |\n' "$1" "$((least / 10)).$((least % 10))" "$((middle / 10)).$((middle % 10))"
}

echo "$(uname -m), $(nproc) processors, $(sed -n 's/^model name[^:]*: //p' /proc/cpuinfo | head -1); load $(cut -d' ' -f1-3 /proc/loadavg)"
echo "$(rt version | head -1); $(rustc --version)"
echo
echo "| lock, one thread, $rounds rounds of $turns | least ns | middle ns |"
echo "|---|---|---|"
measure "a turn, which adds an entry (Rattle)" "$room/crates/turns_bench/out/turns_bench"
measure "std::sync::Mutex (Rattle)" "$room/crates/mutex_bench/out/mutex_bench"
measure "std::sync::Mutex (Rust)" "$room/mutex"
