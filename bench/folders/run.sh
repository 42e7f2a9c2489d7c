#!/usr/bin/env bash
# Measures, on a tree of SHARDS shards, MB megabytes in all, in a folder below ROOM, with 1, 2, 4 and as many workers as there are processors: a first snapshot, one without any change, a
# restore, which is compared with the tree, and a check (which one worker makes, however many there are). In the same run: the kit's own sha2, sha256sum and cp; and restic, borg and rsync,
# where they are installed, by the same jobs in the same order. These don't compress, and borg doesn't encrypt; with `all read` they read files whose times are as before, as this program
# always does. Each job begins cold: the system has given up what it held of all files here.
#
# Then a file changes, one goes and one comes: a snapshot of that, and restores of both. Then a byte of a blob is changed, and the check must name that blob. Where strace is there, the
# system calls that sync are counted, in one more first and second snapshot.
#
# Shares are of the rates of the kit's sha2: by the clock, and by processor second. The goals are tried last, and where one is missed the status is 1: checks and restores of one worker at
# 0.85 by processor second; a first snapshot by four workers at 3.3 times the rate of one and 1.5 times that of the faster peer, their other jobs at 3 times that of one, all three on fewer
# than four processors a share of that; less than 16 MB of memory. They want a machine with nothing else on it.
#
# The program must be built (`./esrepo build`), or PROGRAM names one.
set -euo pipefail
export LC_ALL=C
here=$(cd "$(dirname "$0")" && pwd)
program=${PROGRAM:-$(cd "$here/../.." && pwd)/crates/esr_cli/out/esr_cli}
[ -x "$program" ] || { echo "not built: $program" >&2; exit 1; }
# python itself, since what a wrapper of it takes would count too
python=$(python3 -c 'import sys; print(sys.executable)')
megabytes=${MB:-1024} shards=${SHARDS:-8} processors=$(nproc)
room=$(mktemp -d "${ROOM:-/tmp}/esr_folders_bench.XXXXXX")
trap 'rm -rf "$room"' EXIT

mkdir -p "$room/hash/crates/folders_hash"/{src,specs,proofs}
echo 'folders_hash: sha2' > "$room/hash/crates.txt"
cp "$here/hash.rt.txt" "$room/hash/crates/folders_hash/src/main.rt"
: > "$room/hash/crates/folders_hash/specs/Lib.antt"
: > "$room/hash/crates/folders_hash/proofs/Lib.antt"
printf '%s\n' 'Handles allowed: none.' > "$room/hash/HANDLES"
(cd "$room/hash/crates/folders_hash" && ${RT:-rt} run < /dev/null) > "$room/build.log" 2>&1 || { tail -20 "$room/build.log"; exit 1; }
hash=$room/hash/crates/folders_hash/out/folders_hash

each=$((megabytes * 1048576 / shards / 4))
for ((shard = 0; shard < shards; shard++)); do
    mkdir -p "$room/src/$shard"
    for file in _0.cfs _1.cfs _2.cfs _3.cfs; do
        head -c "$each" /dev/urandom > "$room/src/$shard/$file"
    done
done
total=$((each * 4 * shards))
cd "$room"

cold() { # the system gives up what it holds of the files here
    sync
    "$python" - <<'PY'
import os
for at, _, names in os.walk("."):
    for name in names:
        file = os.open(os.path.join(at, name), os.O_RDONLY)
        os.posix_fadvise(file, 0, 0, os.POSIX_FADV_DONTNEED)
        os.close(file)
PY
}

row() { # who works, job, command: what it took, by the clock of the shell that ran it and the system's count of its children
    cold
    (
        start=$EPOCHREALTIME status=0
        eval "$3" > said || status=$?
        exec "$python" - "$total" "$1" "$2" "$start" "$EPOCHREALTIME" "$status" <<'PY'
import os, resource, sys
total, who, job, wall, status = int(sys.argv[1]) / 1e6, sys.argv[2], sys.argv[3], float(sys.argv[5]) - float(sys.argv[4]), sys.argv[6]
used = resource.getrusage(resource.RUSAGE_CHILDREN)
busy, memory = max(used.ru_utime + used.ru_stime, 1e-6), used.ru_maxrss / 1024
print(who, job, total / wall, total / busy, memory, sep="\t", file=open("rates", "a"))
first = open("rates").readline().split("\t") # those of sha2
shares = total / wall / float(first[2]), total / busy / float(first[3])
print(f"| {who} | {job} | {wall:.2f} | {total / wall:.0f} | {shares[0]:.2f} | {busy:.2f} | {total / busy:.0f} | {shares[1]:.2f} | {memory:.1f} | {status} |", flush=True)
PY
    )
}

jobs() { # who works, where its restore puts the tree, and commands: a first snapshot, one without change, one that reads all, a restore into out, a check
    row "$1" 'first snapshot' "$3"
    [ -z "$4" ] || row "$1" 'no change' "$4"
    row "$1" 'no change, all read' "$5"
    row "$1" restore "$6"
    diff -r src "$2"
    rm -r out
    row "$1" check "$7"
}

says() { # a line, which the last command must have printed
    grep -qx -- "$1" said || { echo "it didn't say: $1" >&2; cat said >&2; exit 1; }
}

is_there() { # a peer, unless it is absent
    command -v "$1" > /dev/null || { absent="$absent $1"; return 1; }
}

change() { # file, place: another byte at that place
    printf '%b' "$(printf '\\x%02x' $(($(od -An -tu1 -j "$2" -N 1 "$1") ^ 1)))" | dd of="$1" bs=1 seek="$2" conv=notrunc status=none
}

echo "$(uname -m), $processors processors, $(sed -n 's/^model name[^:]*: //p' /proc/cpuinfo | head -1); load $(cut -d' ' -f1-3 /proc/loadavg)"
${RT:-rt} version | head -1
echo "$((total / 1000000)) MB in $shards shards of 4 files"
echo
echo '| who | job | s | MB/s | share | processor s | MB / processor s | share | MB of memory | status |'
echo '|---|---|---|---|---|---|---|---|---|---|'
row 'sha2 of the kit' 'hash' "for file in src/*/*; do $hash < \$file; done"
row sha256sum 'hash' 'sha256sum src/*/*'
row cp 'copy' 'cp -r src copy && sync -f copy'

for workers in $(printf '%s\n' 1 2 4 "$processors" | sort -nu); do
    rm -rf repo
    crew="$program --workers $workers"
    jobs "workers: $workers" out/logs "$crew snapshot s1 logs/$shards/src" '' "$crew snapshot s2 logs/$shards/src" "$crew restore s1 out" "$crew check"
    says '1 check ok snapshots 2 blobs [0-9]*'
done
absent=''
if is_there restic; then
    export RESTIC_REPOSITORY=$room/restic RESTIC_PASSWORD=none RESTIC_CACHE_DIR=$room/restic.cache RESTIC_COMPRESSION=off
    restic -q init
    jobs restic out/src 'restic -q backup src' 'restic -q backup src' 'restic -q backup --force src' \
        'restic -q restore latest --target out && sync -f out' 'restic -q check --read-data'
    rm -r restic restic.cache
fi
if is_there borg; then
    export BORG_REPO=$room/borg BORG_BASE_DIR=$room/borg.home BORG_UNKNOWN_UNENCRYPTED_REPO_ACCESS_IS_OK=yes
    borg init --encryption none
    jobs borg out/src 'borg create --compression none ::s1 src' 'borg create --compression none ::s2 src' 'borg create --compression none --files-cache disabled ::s3 src' \
        'mkdir out && (cd out && borg extract ::s1 && sync -f .)' 'borg check --verify-data'
    rm -r borg borg.home
fi
if is_there rsync; then
    jobs rsync out 'rsync -a --fsync src/ mirror/' 'rsync -a src/ mirror/' 'rsync -a --checksum src/ mirror/' \
        'rsync -a --fsync mirror/ out/' 'rsync -an --checksum src/ mirror/'
    rm -r mirror
fi

change src/0/_0.cfs $((each / 2))
rm src/0/_1.cfs
head -c "$each" /dev/urandom > src/0/_4.cfs
row "workers: $workers" 'a file changed, one less, one more' "$crew snapshot s3 logs/$shards/src"
row "workers: $workers" 'restore of that' "$crew restore s3 new"
diff -r src new/logs
row "workers: $workers" 'restore of the first' "$crew restore s1 old"
diff -r copy old/logs
rm -r copy old new
row "workers: $workers" 'list' "$crew list"
row "workers: $workers" 'start-up: words that are bad' "$crew list more"
echo
echo "absent:${absent:- none}; all restores are as their trees were, byte by byte"

"$python" - "$processors" <<'PY'
import sys
free = min(4, int(sys.argv[1])) / 4
rows = [line.rstrip("\n").split("\t") for line in open("rates")]
wall = {(who, job): float(rate) for who, job, rate, _, _ in rows}
busy = {(who, job): float(rate) for who, job, _, rate, _ in rows}
missed = open("missed", "w")

def hold(what, found, wanted):
    print(f"{what}: {found:.2f}, goal {wanted:.2f}")
    if found < wanted:
        print(f"missed: {what}", file=missed)

print()
for job in ("restore", "check"):
    hold(f"{job} by one worker beside sha2, by processor second", busy["workers: 1", job] / busy["sha2 of the kit", "hash"], 0.85)
for job in ("first snapshot", "no change, all read", "restore", "check"):
    hold(f"{job} by four workers beside one", wall["workers: 4", job] / wall["workers: 1", job], (3.3 if job == "first snapshot" else 3) * free)
peers = [(wall[who, "first snapshot"], who) for who in ("restic", "borg") if (who, "first snapshot") in wall]
if peers:
    rate, who = max(peers)
    hold(f"first snapshot by four workers beside {who}", wall["workers: 4", "first snapshot"] / rate, 1.5 * free)
hold("16 MB beside the most memory", 16 / max(float(memory) for who, _, _, _, memory in rows if who.startswith("workers: ")), 1)
PY

blob=$(find repo/blobs -name '__*' | sort | sed -n 1p)
change "$blob" $(($(stat -c %s "$blob") / 2))
name=${blob#repo/blobs/} status=0
$crew check > said || status=$?
says "1 check failed damaged ${name%.part*}"
says "damaged ${name%.part*}"
[ "$status" = 4 ] || { echo "its status is $status, not 4" >&2; exit 1; }
echo
echo "a byte of $name was changed: $(sed -n 1p said)"

syncs() { # name of the snapshot: how often the program syncs, by system call
    strace -f -qq -c -o trace -e trace=fsync,fdatasync,syncfs,sync,sync_file_range,msync "$program" --repo traced snapshot "$1" "logs/$shards/src" > /dev/null
    awk '$NF ~ /sync/ { calls = calls " " $4 " " $NF } END { print (calls == "" ? " none" : calls) }' trace
}

if command -v strace > /dev/null; then
    echo
    echo "system calls that sync, first snapshot:$(syncs s1)"
    echo "system calls that sync, second snapshot:$(syncs s2)"
    echo "files of the repository then: $(find traced -type f | wc -l)"
fi

cat missed
[ ! -s missed ]
