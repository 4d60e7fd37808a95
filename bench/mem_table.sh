#!/usr/bin/env bash
# Measures what a write costs beside the rows that are held in memory: `kvr script` opens a log of so many SETs of
# different keys, and then is asked for SETs and GETs at keys spread over all of them. The time runs from the first request
# to the last answer, without the opening. It is taken over a folder in memory, where a sync costs nothing, and over one on
# the disk, beside a loop that writes and syncs the same bytes. The ratios are those to the first line and to the loop; the
# last column is the memory that a row takes once the log is open.
#
#     bench/mem_table.sh [PROGRAM]
#
# It builds the program, or takes the one named. Needs python3.
set -eu
top=$(cd -- "$(dirname -- "$0")/.." && pwd)
disk=$(mktemp -d)
memory=$(mktemp -d -p /dev/shm)
trap 'rm -rf "$disk" "$memory"' EXIT
if [ $# -gt 0 ]; then
    program=$1
else
    program="$top/crates/kvr/out/kvr"
    "$top/kvr" script --dir "$disk" < /dev/null
fi
python3 - "$program" "$memory" "$disk" <<'PYTHON'
import os
import shutil
import statistics
import struct
import subprocess
import sys
import time

program, memory, disk = sys.argv[1:]


def request(*words):
    return b"*%d\r\n" % len(words) + b"".join(b"$%d\r\n%s\r\n" % (len(w), w) for w in words)


def make_log(folder, count):
    """A log of so many SETs, each of a key of its own, in an order that is not theirs."""
    shutil.rmtree(folder, ignore_errors=True)
    os.mkdir(folder)
    with open(os.path.join(folder, "wal-1"), "wb") as log:
        for i in range(count):
            raw = b"m\0key:%07d" % (i * 7919 % count)
            value = b"\x81" + bytes(8) + b"%07d" % i
            body = struct.pack(">QQIBI", i + 1, 5, 1, 1, len(raw)) + raw + struct.pack(">I", len(value)) + value
            log.write(b"\x01" + struct.pack(">I", len(body)) + body)
        log.write(b"\0")


class Session:
    """A run of the program over a folder."""

    def __init__(self, folder):
        self.process = subprocess.Popen([program, "script", "--dir", folder], stdin=subprocess.PIPE, stdout=subprocess.PIPE)
        begin = time.monotonic()
        self.ask(request(b"PING"), 1)
        self.opened = time.monotonic() - begin

    def ask(self, text, answers):
        """The time from a text to the last of the answers to it, which are all of one line or of two."""
        lines = answers * (2 if text.startswith(b"*2") else 1)
        begin = time.monotonic()
        self.process.stdin.write(text)
        self.process.stdin.flush()
        for _ in range(lines):
            line = self.process.stdout.readline()
            if not line or line.startswith((b"-", b"$-")):
                sys.exit("answered %r" % line)
        return time.monotonic() - begin

    def kilobytes(self, field):
        with open("/proc/%d/status" % self.process.pid) as lines:
            return next(int(line.split()[1]) for line in lines if line.startswith(field + ":"))

    def end(self):
        self.process.stdin.close()
        self.process.wait()


def each(session, requests):
    """Seconds for each of the requests, which are sent in pieces that no pipe has to hold twice."""
    took = 0
    for at in range(0, len(requests), 500):
        part = requests[at : at + 500]
        took += session.ask(b"".join(part), len(part))
    return took / len(requests)


# How many bytes the record of one of the SETs has.
RECORD = 5 + 8 + 8 + 4 + 1 + 4 + len(b"m\0key:0000000") + 4 + 9 + 7


def loop(folder, count):
    """Seconds for each of so many records that are only written and synced: the record, and then its gate."""
    file = os.open(os.path.join(folder, "loop"), os.O_RDWR | os.O_CREAT)
    begin = time.monotonic()
    for at in range(0, count * RECORD, RECORD):
        os.pwrite(file, bytes(RECORD - 1), at + 1)
        os.fdatasync(file)
        os.pwrite(file, b"\1", at)
        os.fdatasync(file)
    took = time.monotonic() - begin
    os.close(file)
    return took / count


def in_memory():
    """What a write and a read cost where a sync costs nothing, and what a row takes."""
    empty = first = None
    for count in COUNTS:
        folder = os.path.join(memory, "store")
        make_log(folder, count)
        session = Session(folder)
        held = session.kilobytes("VmRSS")
        keys = [b"key:%07d" % (i * 104729 % count) for i in range(10_000)]
        set_time = each(session, [request(b"SET", key, b"%07d" % i) for i, key in enumerate(keys[:1_000])])
        get_time = each(session, [request(b"GET", key) for key in keys])
        peak = session.kilobytes("VmHWM")
        session.end()
        first = first or (set_time, get_time)
        empty = empty or held
        row = "%.0f bytes a row" % ((held - empty) * 1024 / count) if count >= 100_000 else ""
        ratios = set_time / first[0], get_time / first[1]
        print("in memory   %9d rows   opened in %6.3f s   a SET %6.1f us (x%.2f)   a GET %5.2f us (x%.2f)   %6.1f MB, at most %6.1f MB   %s"
              % (count, session.opened, set_time * 1e6, ratios[0], get_time * 1e6, ratios[1], held / 1024, peak / 1024, row), flush=True)


def on_the_disk():
    """Durable SETs, in rounds that go from store to store and then to the loop, since a disk has its moods: medians."""
    sessions = {}
    for count in COUNTS:
        make_log(os.path.join(disk, str(count)), count)
        sessions[count] = Session(os.path.join(disk, str(count)))
    times, loops = {count: [] for count in COUNTS}, []
    for turn in range(20):
        for count, session in sessions.items():
            keys = [b"key:%07d" % ((i * 104729 + turn * 31) % count) for i in range(200)]
            times[count].append(each(session, [request(b"SET", key, b"%07d" % turn) for key in keys]))
        loops.append(loop(disk, 200))
    for count, session in sessions.items():
        session.end()
        took = statistics.median(times[count])
        first = statistics.median(times[COUNTS[0]])
        print("on the disk %9d rows   a SET %6.1f us (x%.2f, of the loop x%.2f)" % (count, took * 1e6, took / first, took / statistics.median(loops)), flush=True)


COUNTS = (1_000, 10_000, 100_000, 1_000_000)
in_memory()
on_the_disk()
PYTHON
