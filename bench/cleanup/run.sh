#!/usr/bin/env bash
# Measures a cleanup of a container in a folder below ROOM that has BLOBS blobs in SHARDS shards, of which half is reached by no snapshot: seconds by the clock and of the processor, megabytes
# of memory, and, where strace is there, system calls. In the same run: restic and borg, where they are installed, which take the second one of two trees of as many files away. All begin
# cold: the system has given up what it held of all files here.
#
# Afterwards the container must hold what the first snapshot needs and nothing else, and its check and restore must be well. The goals are tried last, and where one is missed the status is
# 1: 32 MB of memory, two system calls for each blob that was removed.
#
# The program must be built (`./esrepo build`), or PROGRAM names one.
set -euo pipefail
export LC_ALL=C
here=$(cd "$(dirname "$0")" && pwd)
program=${PROGRAM:-$(cd "$here/../.." && pwd)/crates/esr_cli/out/esr_cli}
[ -x "$program" ] || { echo "not built: $program" >&2; exit 1; }
# python itself, since what a wrapper of it takes would count too
python=$(python3 -c 'import sys; print(sys.executable)')
blobs=${BLOBS:-100000} shards=${SHARDS:-50}
each=$((blobs / shards / 2))
room=$(mktemp -d "${ROOM:-/tmp}/esr_cleanup_bench.XXXXXX")
trap 'rm -rf "$room"' EXIT
cd "$room"

"$python" - "$shards" "$each" <<'PY'
import os, sys
for tree in "src", "more":
    for shard in range(int(sys.argv[1])):
        os.makedirs(f"{tree}/{shard}")
        for at in range(int(sys.argv[2])):
            with open(f"{tree}/{shard}/_{at}.cfs", "wb") as file:
                file.write(os.urandom(128))
PY

garbage() { # beside each data blob another one of a fresh name, which nothing reaches
    "$python" - repo <<'PY'
import base64, os, sys
for at, _, names in os.walk(sys.argv[1]):
    for name in names:
        if name.startswith("__"):
            fresh = base64.urlsafe_b64encode(os.urandom(16)).decode().rstrip("=")
            with open(os.path.join(at, f"__{fresh}"), "wb") as file:
                file.write(os.urandom(128))
PY
}

cold() { # the system gives up what it holds of the files here
    sync
    "$python" - <<'PY'
import os
for at, _, names in os.walk("."):
    for name in names:
        file = os.open(os.path.join(at, name), os.O_RDONLY)
        os.posix_fadvise(file, 0, 0, os.POSIX_FADV_DONTNEED)
        os.close(file)
PY
}

row() { # who, command: what it took
    cold
    (
        start=$EPOCHREALTIME status=0
        eval "$2" > said || status=$?
        exec "$python" - "$1" "$start" "$EPOCHREALTIME" "$status" <<'PY'
import resource, sys
who, wall, status = sys.argv[1], float(sys.argv[3]) - float(sys.argv[2]), sys.argv[4]
used = resource.getrusage(resource.RUSAGE_CHILDREN)
busy, memory = used.ru_utime + used.ru_stime, used.ru_maxrss / 1024
print(who, wall, busy, memory, sep="\t", file=open("rows", "a"))
print(f"| {who} | {wall:.2f} | {busy:.2f} | {memory:.1f} | {status} |", flush=True)
PY
    )
}

says() { # a line, which the last command must have printed
    grep -qx -- "$1" said || { echo "it didn't say: $1" >&2; cat said >&2; exit 1; }
}

count() { find repo -type f | wc -l; }

echo "$(uname -m), $(nproc) processors, $(sed -n 's/^model name[^:]*: //p' /proc/cpuinfo | head -1); load $(cut -d' ' -f1-3 /proc/loadavg)"
${RT:-rt} version | head -1
"$program" --workers 4 snapshot s1 "logs/$shards/src" > said
needed=$(count)
garbage
echo "$(count) files in the container, of which $needed are needed, in $shards shards"
echo
echo '| who | s | processor s | MB of memory | status |'
echo '|---|---|---|---|---|'
row esrepo "$program cleanup"
says '1 cleanup ok blobs [0-9]* bytes [0-9]*'
removed=$(sed -n 's/^1 cleanup ok blobs \([0-9]*\) .*/\1/p' said)
left=$(count)
"$program" check > said
says '1 check ok snapshots 1 blobs [0-9]*'
"$program" restore s1 out > said
diff -r src out/logs
rm -r out

if command -v restic > /dev/null; then
    export RESTIC_REPOSITORY=$room/restic RESTIC_PASSWORD=none RESTIC_CACHE_DIR=$room/restic.cache RESTIC_COMPRESSION=off
    restic -q init
    restic -q backup src
    restic -q backup --tag more more
    restic -q forget "$(restic -q snapshots --tag more --json | "$python" -c 'import json, sys; print(json.load(sys.stdin)[0]["id"])')"
    row restic 'restic -q prune'
    rm -r restic restic.cache
fi
if command -v borg > /dev/null; then
    export BORG_REPO=$room/borg BORG_BASE_DIR=$room/borg.home BORG_UNKNOWN_UNENCRYPTED_REPO_ACCESS_IS_OK=yes
    borg init --encryption none
    borg create --compression none ::s1 src
    borg create --compression none ::s2 more
    row borg 'borg delete ::s2 && borg compact'
    rm -r borg borg.home
fi

calls=
if command -v strace > /dev/null; then
    garbage
    strace -f -c -o calls "$program" cleanup > said
    says '1 cleanup ok blobs [0-9]* bytes [0-9]*'
    again=$(sed -n 's/^1 cleanup ok blobs \([0-9]*\) .*/\1/p' said)
    calls=$("$python" - "$again" <<'PY'
import sys
total, kinds = 0, []
for line in open("calls").read().splitlines()[2:]:
    words = line.split()
    if len(words) >= 5 and words[-1] != "total" and words[3].isdigit():
        total += int(words[3])
        kinds.append((int(words[3]), words[-1]))
print(f"{total / int(sys.argv[1]):.2f}", "; ".join(f"{name} {count}" for count, name in sorted(kinds, reverse=True)[:6]))
PY
    )
    echo
    echo "system calls for each of $again blobs that were removed: $calls"
fi

echo
echo "removed $removed, left $left of the $needed that the snapshot needs"
"$python" - "$removed" "$left" "$needed" "$((each * shards))" "${calls%% *}" <<'PY'
import sys
removed, left, needed, garbage = map(int, sys.argv[1:5])
memory = float(open("rows").readline().split("\t")[3])
missed = [said for said, good in (
    ("all of the garbage is gone, and the root before", removed >= garbage),
    ("what is needed is left", abs(left - needed) <= 1),
    ("32 MB of memory", memory <= 32),
    ("two system calls for each removed blob", not sys.argv[5] or float(sys.argv[5]) <= 2),
) if not good]
for said in missed:
    print(f"missed: {said}")
sys.exit(1 if missed else 0)
PY
