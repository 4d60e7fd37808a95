#!/usr/bin/env bash
# Measures the gate: the processor seconds that each crate's proofs, tests and must-fail edits take, and how many processor
# minutes a thousand lines of code that is in all. Lines of code are those of .rt files, with their contracts: the budget
# is stated for these, and definitions and proofs in .antt files count for nothing in it.
#
#     bench/gate.sh [--kept] [NAME..]
#
# It runs `rt ci --anew` over a fresh clone, so nothing that earlier runs proved is used; with --kept it runs `rt ci`, and
# measures only what is new. With names only these crates and those below them are proved. What a prover's process used is
# read off twice a second, so a process is counted up to half a second short. Needs python3.
set -eu
top=$(cd -- "$(dirname -- "$0")/.." && pwd)
anew=--anew
if [ "${1:-}" = --kept ]; then
    anew=
    shift
fi
work=$(mktemp -d)
trap 'rm -rf "$work"' EXIT
git clone -q "$top" "$work/clone"
cd "$work/clone"
# shellcheck disable=SC2086
setsid rt ci $anew "$@" > "$work/log" 2>&1 < /dev/null &
python3 - "$!" "$work/log" "$top" <<'PYTHON'
import collections, glob, os, sys, time

leader, log, top = int(sys.argv[1]), sys.argv[2], sys.argv[3]
tick = os.sysconf("SC_CLK_TCK")
used, kinds = {}, {}


def prover(words):
    """The crate of a prover's process, and what it proves."""
    if not words[0].endswith("/rattle") or "--crate-name" not in words:
        return None
    name = words[words.index("--crate-name") + 1]
    if words[1] == "check":
        return name, "edits"
    return name, "tests" if "--test" in words else "proofs"


def sample():
    """Reads off what each process of the run has used so far."""
    for path in glob.glob("/proc/[0-9]*"):
        try:
            stat = open(path + "/stat").read()
            fields = stat[stat.rindex(")") + 2 :].split()
            if int(fields[3]) != leader:
                continue
            pid = (os.path.basename(path), fields[19])
            if pid not in kinds:
                kinds[pid] = prover(open(path + "/cmdline").read().split("\0"))
            used[pid] = (int(fields[11]) + int(fields[12])) / tick
        except (OSError, ValueError):
            pass


begun = time.time()
while os.path.exists("/proc/%d" % leader) and open("/proc/%d/stat" % leader).read().rsplit(")", 1)[1].split()[0] != "Z":
    sample()
    time.sleep(0.5)
table = collections.defaultdict(collections.Counter)
for pid, seconds in used.items():
    if kinds[pid]:
        name, kind = kinds[pid]
        table[name][kind] += seconds


def lines(name):
    """How many lines of code a crate has: those of its .rt files."""
    found = 0
    for path in glob.glob("%s/crates/%s/**/*.rt" % (top, name), recursive=True):
        if "/out/" not in path:
            found += len(open(path).read().splitlines())
    return found


print("| crate | lines | proofs | tests | edits | minutes in all |")
print("|---|---:|---:|---:|---:|---:|")
rows = sorted(table, key=lambda name: -sum(table[name].values()))
for name in rows:
    row = table[name]
    print("| `%s` | %d | %.0f s | %.0f s | %.0f s | %.1f |" % (name, lines(name), row["proofs"], row["tests"], row["edits"], sum(row.values()) / 60))
spent, code = sum(used.values()) / 60, sum(lines(name) for name in rows)
print("| all | %d | %.0f s | %.0f s | %.0f s | %.1f |" % (code, *(sum(table[n][k] for n in rows) for k in ("proofs", "tests", "edits")), spent))
if code:
    print("\n%.1f processor minutes a thousand lines; %.0f minutes by the clock on %d processors" % (spent * 1000 / code, (time.time() - begun) / 60, os.cpu_count()))
print(open(log).read().rstrip().split("\n")[-1])
PYTHON
