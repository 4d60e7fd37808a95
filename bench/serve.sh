#!/usr/bin/env bash
# Measures `kvr serve` by redis-benchmark, beside Redis where it is there: SET, GET, INCR, LPUSH, HSET and ZADD over one
# connection, a request at a time and in pipelines of 16. Redis syncs its log before it answers, as kvr does:
# appendonly yes and appendfsync always. Each line has the requests a second of both, in the same run on the same disk,
# and kvr's part of Redis'. Of three turns, which alternate, the best counts. A command that kvr answers as unknown is
# left out, which a line says.
#
#     bench/serve.sh [COUNT]
#
# COUNT requests go one at a time, 5,000 where no number is given, and ten times as many in pipelines. Needs python3 and
# redis-benchmark; without redis-server the lines have kvr alone.
set -eu
top=$(cd -- "$(dirname -- "$0")/.." && pwd)
count=${1:-5000}
if ! command -v redis-benchmark > /dev/null; then
    echo "bench/serve.sh: no redis-benchmark" >&2
    exit 1
fi
work=$(mktemp -d)
servers=()
stop() {
    for server in "${servers[@]}"; do
        kill "$server" 2> /dev/null || true
        wait "$server" 2> /dev/null || true
    done
    rm -rf "$work"
}
trap stop EXIT
mkdir "$work/empty" "$work/store" "$work/redis"
"$top/kvr" script --dir "$work/empty" < /dev/null
program="$top/crates/kvr/out/kvr"

# free_port: a port that nobody listens on
free_port() {
    python3 -c 'import socket; s = socket.socket(); s.bind(("127.0.0.1", 0)); print(s.getsockname()[1])'
}

# await PORT: until a server answers there, at most ten seconds
await() {
    python3 - "$1" <<'PYTHON'
import socket
import sys
import time

for _ in range(100):
    try:
        with socket.create_connection(("127.0.0.1", int(sys.argv[1])), 1) as link:
            link.sendall(b"PING\r\n")
            if link.recv(16) == b"+PONG\r\n":
                sys.exit(0)
    except OSError:
        pass
    time.sleep(0.1)
sys.exit("no server answers at port %s" % sys.argv[1])
PYTHON
}

ours=$(free_port)
cat > "$work/kvr.toml" <<TOML
dir = "$work/store"
listen = "127.0.0.1:$ours"
workers = 2
TOML
"$program" serve --conf "$work/kvr.toml" > /dev/null &
servers+=($!)
await "$ours"

theirs=
if command -v redis-server > /dev/null; then
    theirs=$(free_port)
    redis-server --port "$theirs" --bind 127.0.0.1 --dir "$work/redis" --save "" --appendonly yes --appendfsync always > /dev/null &
    servers+=($!)
    await "$theirs"
fi

# compare COUNT PIPELINE: each command so often, with so many requests on their way
compare() {
    python3 - "$1" "$2" "$ours" "$theirs" <<'PYTHON'
import csv
import socket
import subprocess
import sys

count, pipeline, ours, theirs = sys.argv[1:]
# each command in a form that the server can be asked by
commands = {
    "set": b"SET probe:set v",
    "get": b"GET probe:set",
    "incr": b"INCR probe:incr",
    "lpush": b"LPUSH probe:lpush v",
    "hset": b"HSET probe:hset f v",
    "zadd": b"ZADD probe:zadd 1 m",
}


# whether the server knows the command
def is_known(port, command):
    with socket.create_connection(("127.0.0.1", int(port))) as link:
        link.sendall(commands[command] + b"\r\n")
        return not link.recv(1024).startswith(b"-ERR unknown command")


# the requests a second of one run
def rate(port, command):
    words = ["redis-benchmark", "-p", port, "-c", "1", "-n", count, "-P", pipeline, "-r", "1000", "-t", command, "--csv"]
    run = subprocess.run(words, capture_output=True, text=True)
    rows = [row for row in csv.reader(run.stdout.splitlines()) if row]
    rates = [float(row[1]) for row in rows if row[0].split()[0].lower() == command]
    if len(rates) != 1:
        sys.exit("redis-benchmark -t %s told %r and %r" % (command, rows, run.stderr))
    return rates[0]


for command in commands:
    if not is_known(ours, command):
        print("%-6s pipeline %2s is left out: kvr answers it as unknown" % (command.upper(), pipeline))
        continue
    best = {}
    for _ in range(3):
        for port in [ours, theirs]:
            if port:
                best[port] = max(best.get(port, 0.0), rate(port, command))
    line = "%-6s pipeline %2s %12.0f requests/s" % (command.upper(), pipeline, best[ours])
    if theirs:
        line += "   Redis %12.0f requests/s: %.2f of it" % (best[theirs], best[ours] / best[theirs])
    print(line)
PYTHON
}

compare "$count" 1
compare "$((10 * count))" 16
