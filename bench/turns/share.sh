#!/usr/bin/env bash
# Measures for how much of the time the turn lock is held: in a first snapshot of a tree of SHARDS shards of 4 files, MB megabytes in all, by WORKERS workers, in one without any change, and in
# a restore, which is compared with the tree. It is done below ROOM. The program runs as it is; share.py looks at its lock from outside, a few thousand times a second, which takes a part of
# a processor. Each job begins cold: the system has given up what it held of all files here.
#
# The goal is tried last, and where it is missed the status is 1: in none of the jobs more than 2 % of the time. It wants a machine with nothing else on it.
#
# The program must be built (`./esrepo build`), or PROGRAM names one.
set -euo pipefail
export LC_ALL=C
here=$(cd "$(dirname "$0")" && pwd)
program=${PROGRAM:-$(cd "$here/../.." && pwd)/crates/esr_cli/out/esr_cli}
[ -x "$program" ] || { echo "not built: $program" >&2; exit 1; }
command -v strace > /dev/null || { echo "strace is absent" >&2; exit 1; }
megabytes=${MB:-512} shards=${SHARDS:-8} workers=${WORKERS:-4}
room=$(mktemp -d "${ROOM:-/tmp}/esr_turns_share.XXXXXX")
trap 'rm -rf "$room"' EXIT

each=$((megabytes * 1048576 / shards / 4))
for ((shard = 0; shard < shards; shard++)); do
    mkdir -p "$room/src/$shard"
    for file in _0.cfs _1.cfs _2.cfs _3.cfs; do
        head -c "$each" /dev/urandom > "$room/src/$shard/$file"
    done
done
cd "$room"

cold() { # the system gives up what it holds of the files here
    sync
    python3 - <<'PY'
import os
for at, _, names in os.walk("."):
    for name in names:
        file = os.open(os.path.join(at, name), os.O_RDONLY)
        os.posix_fadvise(file, 0, 0, os.POSIX_FADV_DONTNEED)
        os.close(file)
PY
}

row() { # job, words of the program
    cold
    local job=$1 seen
    shift
    seen=$(python3 "$here/share.py" said "$program" --workers "$workers" "$@")
    echo "$seen" >> seen
    echo "| $job | $seen |"
}

echo "$(uname -m), $(nproc) processors, $(sed -n 's/^model name[^:]*: //p' /proc/cpuinfo | head -1); load $(cut -d' ' -f1-3 /proc/loadavg)"
${RT:-rt} version | head -1
echo "$((each * 4 * shards / 1000000)) MB in $shards shards of 4 files, $workers workers"
echo
echo '| job | s | turns | with a turn on | waiting workers | looked at | looks | processor s of looking |'
echo '|---|---|---|---|---|---|---|---|'
row 'first snapshot' snapshot s1 "logs/$shards/src"
row 'no change' snapshot s2 "logs/$shards/src"
row restore restore s1 out
diff -r src out/logs

awk -F ' *[|] *' '{ if ($3 + 0 > most) most = $3 + 0 } END { if (most > 2) { print "missed: turns take " most " % of the time of a job"; exit 1 } }' seen
