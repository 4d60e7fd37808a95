#!/usr/bin/env bash
# Measures `kvr script`: the time, requests a second and peak memory of inputs that write nothing, beside the time that
# `cat` takes for the same bytes; a body that arrives a byte at a time; then commands that write, which are on the disk
# before they are answered, beside a loop that writes and syncs as many bytes, with the system calls of a command; then
# one command with as many keys, fields or members as a request has room for; then the opening of a log. Each is also run at half of its
# size, and most at a quarter, to show that nothing grows faster than its input.
#
#     bench/script.sh
#
# Needs python3.
set -eu
top=$(cd -- "$(dirname -- "$0")/.." && pwd)
work=$(mktemp -d)
trap 'rm -rf "$work"' EXIT
mkdir "$work/empty"
"$top/kvr" script --dir "$work/empty" < /dev/null
program="$top/crates/kvr/out/kvr"

# make KIND COUNT: requests of a kind on standard output
make_input() {
    python3 - "$1" "$2" <<'PYTHON'
import sys

kind, count = sys.argv[1], int(sys.argv[2])
out = sys.stdout.buffer


def request(*words):
    return b"*%d\r\n" % len(words) + b"".join(b"$%d\r\n%s\r\n" % (len(w), w) for w in words)


if kind == "ping":
    out.write(request(b"PING") * count)
elif kind == "inline":
    out.write(b"PING\r\n" * count)
elif kind == "gets":
    for i in range(count):
        out.write(request(b"GET", b"key:%d" % (i * 7919 % 1000)))
elif kind == "sets":
    value = b"v" * 100
    for i in range(count):
        out.write(request(b"SET", b"key:%d" % (i * 7919 % 1000), value))
elif kind == "expiring":
    value = b"v" * 100
    for i in range(count):
        out.write(request(b"SET", b"key:%d" % (i * 7919 % 1000), value, b"EX", b"3600"))
elif kind == "incrs":
    for i in range(count):
        out.write(request(b"INCR", b"counter:%d" % (i * 7919 % 1000)))
elif kind == "msets":
    for i in range(count):
        pairs = [(b"key:%d" % ((10 * i + j) * 7919 % 1000), b"v" * 10) for j in range(10)]
        out.write(request(b"MSET", *[word for pair in pairs for word in pair]))
elif kind == "filling":
    # the keys that `dels` takes away
    for i in range(0, count, 1000):
        out.write(request(b"MSET", *[word for j in range(i, min(count, i + 1000)) for word in (b"key:%d" % j, b"v")]))
elif kind == "dels":
    for i in range(count):
        out.write(request(b"DEL", b"key:%d" % i))
elif kind == "one_del":
    # all keys of `filling` in one command, out of order
    out.write(request(b"DEL", *[b"key:%d" % (i * 7919 % count) for i in range(count)]))
elif kind == "one_mset":
    # so many keys in one command, out of order
    out.write(request(b"MSET", *[word for i in range(count) for word in (b"key:%d" % (i * 7919 % count), b"v")]))
elif kind == "hsets":
    for i in range(count):
        out.write(request(b"HSET", b"cart:%d" % (i * 7919 % 100), b"sku%d" % (i * 7919 % 1000), b"%d" % i))
elif kind == "pushes":
    for i in range(count):
        out.write(request(b"RPUSH", b"queue", b"job:%d" % i))
elif kind == "pops":
    out.write(request(b"LPOP", b"queue") * count)
elif kind == "sadds":
    for i in range(count):
        out.write(request(b"SADD", b"tags:%d" % (i * 7919 % 100), b"m%d" % i))
elif kind == "zadds":
    for i in range(count):
        out.write(request(b"ZADD", b"board", b"%d" % (i * 7919 % 1000), b"m%d" % (i * 7919 % 100000)))
elif kind == "zincrs":
    # of the members of `zadds`
    for i in range(count):
        out.write(request(b"ZINCRBY", b"board", b"1", b"m%d" % (i * 7919 % 100000)))
elif kind == "ranges":
    # the ten lowest of a thousand members
    members = [word for i in range(1000) for word in (b"%d" % (i * 7919 % 1000), b"m%d" % i)]
    out.write(request(b"DEL", b"board") + request(b"ZADD", b"board", *members))
    out.write(request(b"ZRANGE", b"board", b"0", b"9", b"WITHSCORES") * count)
elif kind == "one_zadd":
    # so many members of one sorted set in one command, out of order
    out.write(request(b"ZADD", b"z", *[word for i in range(count) for word in (b"%d" % (i % 1000), b"m%d" % (i * 7919 % count))]))
elif kind == "one_hset":
    # so many fields of one hash in one command, out of order
    out.write(request(b"HSET", b"h", *[word for i in range(count) for word in (b"f%d" % (i * 7919 % count), b"v")]))
elif kind == "one_sadd":
    # so many members of one set
    out.write(request(b"SADD", b"s", *[b"m%d" % (i * 7919 % count) for i in range(count)]))
elif kind == "two_sets":
    # the sets of `one_store`, of which each has half of the members, and a third of these in both
    half = count // 2
    out.write(request(b"SADD", b"s", *[b"m%d" % i for i in range(half)]))
    out.write(request(b"SADD", b"t", *[b"m%d" % (i + 2 * half // 3) for i in range(half)]))
elif kind == "one_store":
    out.write(request(b"SUNIONSTORE", b"u", b"s", b"t"))
elif kind == "empty":
    # one request of `count` words of nothing: an unknown command
    out.write(request(*[b""] * count))
elif kind == "large":
    # one request of `count` bytes or little less: an unknown command of words of 1,000,000 bytes
    words = max(1, count // 1_000_000)
    out.write(request(*[b"w" * min(count, 1_000_000)] * words))
PYTHON
}

# measure NAME KIND COUNT REQUESTS
measure() {
    make_input "$2" "$3" > "$work/input"
    python3 - "$1" "$4" "$work/input" "$program" "$work/empty" <<'PYTHON'
import os
import subprocess
import sys
import time

name, requests, path, program, folder = sys.argv[1], int(sys.argv[2]), *sys.argv[3:]


def seconds(words):
    best = None
    for _ in range(3):
        with open(path, "rb") as source, open(os.devnull, "wb") as sink:
            begin = time.monotonic()
            status = subprocess.call(words, stdin=source, stdout=sink)
            took = time.monotonic() - begin
        if status != 0:
            sys.exit("%s ended with status %d" % (words[0], status))
        best = took if best is None else min(best, took)
    return best


# The greatest resident size, read once all input was taken and before its end.
def peak_kilobytes(words):
    with open(path, "rb") as source, open(os.devnull, "wb") as sink:
        process = subprocess.Popen(words, stdin=subprocess.PIPE, stdout=sink)
        process.stdin.write(source.read())
        process.stdin.flush()
        time.sleep(0.3)
        with open("/proc/%d/status" % process.pid) as lines:
            peak = next(int(line.split()[1]) for line in lines if line.startswith("VmHWM:"))
        process.stdin.close()
        process.wait()
    return peak


words = [program, "script", "--dir", folder]
cat, ours, peak = seconds(["cat"]), seconds(words), peak_kilobytes(words)
size = os.path.getsize(path)
print("%-34s %9.1f MB %9.3f s %12.0f requests/s %9.1f MB peak   cat %.3f s" % (name, size / 1e6, ours, requests / ours, peak / 1024, cat))
PYTHON
}

measure "250,000 pipelined PINGs" ping 250000 250000
measure "500,000 pipelined PINGs" ping 500000 500000
measure "1,000,000 pipelined PINGs" ping 1000000 1000000
measure "250,000 inline PINGs" inline 250000 250000
measure "500,000 inline PINGs" inline 500000 500000
measure "1,000,000 inline PINGs" inline 1000000 1000000
measure "50,000 GETs" gets 50000 50000
measure "100,000 GETs" gets 100000 100000
measure "200,000 GETs" gets 200000 200000
measure "20,000 ZRANGEs of ten" ranges 20000 20000
measure "one request of 16,384 empty words" empty 16384 1
measure "one request of 32,768 empty words" empty 32768 1
measure "one request of 65,536 empty words" empty 65536 1
measure "one request of 4 MB" large 4000000 1
measure "one request of 8 MB" large 8000000 1
measure "one request of 16 MB" large 16000000 1

# trickle COUNT: one request whose body of so many bytes arrives a byte at a time
trickle() {
    python3 - "$1" "$program" "$work/empty" <<'PYTHON'
import os
import subprocess
import sys
import time

count, program, folder = int(sys.argv[1]), *sys.argv[2:]
front = b"*2\r\n$4\r\nECHO\r\n$%d\r\n" % count


# How long a program takes that is fed so.
def seconds(words):
    process = subprocess.Popen(words, stdin=subprocess.PIPE, stdout=subprocess.DEVNULL)
    pipe = process.stdin.fileno()
    begin = time.monotonic()
    os.write(pipe, front)
    for _ in range(count):
        os.write(pipe, b"b")
    os.write(pipe, b"\r\n")
    process.stdin.close()
    status = process.wait()
    took = time.monotonic() - begin
    if status != 0:
        sys.exit("%s ended with status %d" % (words[0], status))
    return took


print("%-34s %9.3f s   cat %.3f s" % ("a body of %d bytes, byte by byte" % count, seconds([program, "script", "--dir", folder]), seconds(["cat"])))
PYTHON
}

trickle 250000
trickle 500000
trickle 1000000

# durable NAME KIND COUNT [BEFORE]: commands that write, and a loop that makes the same writes and syncs. Requests of the kind
# BEFORE are carried out first, and not counted.
durable() {
    make_input "$2" "$3" > "$work/input"
    : > "$work/before"
    if [ $# -gt 3 ]; then make_input "$4" "$3" > "$work/before"; fi
    python3 - "$3 $1" "$3" "$work/input" "$work/before" "$program" "$work" <<'PYTHON'
import os
import shutil
import subprocess
import sys
import time

name, count, path, before, program, work = sys.argv[1], int(sys.argv[2]), *sys.argv[3:]
folder = os.path.join(work, "store")
log = os.path.join(folder, "wal-1")
words = [program, "script", "--dir", folder]


def call(words, path):
    with open(path, "rb") as source, open(os.devnull, "wb") as sink:
        begin = time.monotonic()
        status = subprocess.call(words, stdin=source, stdout=sink, stderr=subprocess.DEVNULL)
        took = time.monotonic() - begin
    if status != 0:
        sys.exit("%s ended with status %d" % (words[0], status))
    return took


# How long the commands take over a new store, and how many bytes they add to its log.
def run(words):
    shutil.rmtree(folder, ignore_errors=True)
    os.mkdir(folder)
    call([program, "script", "--dir", folder], before)
    old = os.path.getsize(log)
    took = call(words, path)
    return took, os.path.getsize(log) - old


# Two writes and two syncs for each record.
def loop(size):
    file = os.open(os.path.join(folder, "loop"), os.O_RDWR | os.O_CREAT)
    record, at = b"r" * (size - 1), 0
    begin = time.monotonic()
    for _ in range(count):
        os.pwrite(file, record, at + 1)
        os.fdatasync(file)
        os.pwrite(file, b"1", at)
        os.fdatasync(file)
        at += size
    took = time.monotonic() - begin
    os.close(file)
    return took


def calls():
    if shutil.which("strace") is None:
        return "no strace"
    counts = os.path.join(work, "calls")
    run(["strace", "-f", "-c", "-o", counts, "-e", "trace=pwrite64,fdatasync,fsync,write"] + words)
    lines = [line.split() for line in open(counts)]
    return ", ".join("%s %.3f" % (l[-1], int(l[3]) / count) for l in lines if len(l) >= 5 and l[3].isdigit() and l[-1] != "total")


ours, added = run(words)
size = added // count
print("%-34s %9.3f s %12.0f a second   %d bytes each   loop %.3f s   calls each: %s" % (name, ours, count / ours, size, loop(size), calls()))
PYTHON
}

durable "durable SETs" sets 500
durable "durable SETs" sets 1000
durable "durable SETs" sets 2000
durable "durable SETs with a deadline" expiring 1000
durable "durable INCRs" incrs 1000
durable "durable MSETs of 10 keys" msets 1000
durable "durable DELs" dels 1000 filling
durable "durable HSETs of one field" hsets 1000
durable "durable RPUSHs" pushes 1000
durable "durable LPOPs" pops 1000 pushes
durable "durable SADDs" sadds 1000
durable "durable ZADDs" zadds 1000
durable "durable ZINCRBYs" zincrs 1000 zadds

# many NAME KIND COUNT HALF [BEFORE]: one command with so many keys, and one with half as many. Each is the best of five
# sessions, from the command's first byte to its answer. Requests of the kind BEFORE are carried out in front of it.
many() {
    for count in "$3" "$4"; do
        make_input "$2" "$count" > "$work/input-$count"
        : > "$work/before-$count"
        if [ $# -gt 4 ]; then make_input "$5" "$count" > "$work/before-$count"; fi
    done
    python3 - "$1" "$3" "$4" "$program" "$work" <<'PYTHON'
import os
import shutil
import subprocess
import sys
import time

name, full, half, program, work = sys.argv[1], int(sys.argv[2]), int(sys.argv[3]), *sys.argv[4:]
folder = os.path.join(work, "store")


def read(kind, count):
    with open(os.path.join(work, "%s-%d" % (kind, count)), "rb") as source:
        return source.read()


# How long the command takes in a session of its own, whose answer is one line, as are those before it.
def once(before, command):
    shutil.rmtree(folder, ignore_errors=True)
    os.mkdir(folder)
    session = subprocess.Popen([program, "script", "--dir", folder], stdin=subprocess.PIPE, stdout=subprocess.PIPE)
    session.stdin.write(before + b"PING\r\n")
    session.stdin.flush()
    while session.stdout.readline() != b"+PONG\r\n":
        pass
    begin = time.monotonic()
    session.stdin.write(command)
    session.stdin.flush()
    answer = session.stdout.readline()
    took = time.monotonic() - begin
    session.stdin.close()
    if session.wait() != 0 or not answer.startswith((b":", b"+")):
        sys.exit("%s answered %r" % (program, answer))
    return took


def seconds(count):
    before, command = read("before", count), read("input", count)
    return min(once(before, command) for _ in range(5))


more, less = seconds(full), seconds(half)
print("%-34s %9.3f s for %d keys %9.3f s for %d: %.2f times as long" % (name, more, full, less, half, more / less))
PYTHON
}

many "one DEL" one_del 65535 32767 filling
many "one MSET" one_mset 32767 16383
many "one HSET" one_hset 32767 16383
many "one SADD" one_sadd 65534 32767
many "one ZADD" one_zadd 32767 16383
many "one SUNIONSTORE of half as many each" one_store 65534 32767 two_sets

# opening COUNT: a log of so many small SETs is opened, and nothing asked
opening() {
    python3 - "$1" "$program" "$work" <<'PYTHON'
import os
import shutil
import struct
import subprocess
import sys
import time

count, program, work = int(sys.argv[1]), *sys.argv[2:]
folder = os.path.join(work, "log")
shutil.rmtree(folder, ignore_errors=True)
os.mkdir(folder)
with open(os.path.join(folder, "wal-1"), "wb") as log:
    for i in range(count):
        raw = b"m\0key:%d" % (i * 7919 % 1000)
        value = b"\x81" + bytes(8) + b"%d" % i
        body = struct.pack(">QQIBI", i + 1, 5, 1, 1, len(raw)) + raw + struct.pack(">I", len(value)) + value
        log.write(b"\x01" + struct.pack(">I", len(body)) + body)
    log.write(b"\0")
best = None
for _ in range(3):
    begin = time.monotonic()
    status = subprocess.call([program, "script", "--dir", folder], stdin=subprocess.DEVNULL)
    took = time.monotonic() - begin
    if status != 0:
        sys.exit("the opening ended with status %d" % status)
    best = took if best is None else min(best, took)
print("%-34s %9.3f s %12.0f records/s" % ("opening a log of %d SETs" % count, best, count / best))
PYTHON
}

opening 250000
opening 500000
opening 1000000
