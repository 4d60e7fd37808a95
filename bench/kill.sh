#!/usr/bin/env bash
# Kills `kvr serve` at random moments while a client writes numbered keys in pipelines, starts it again over the same
# folder, and looks for each key whose answer had come in. A kill ends the process alone: the system goes on, and so does
# what it was handed. What a crash of the machine leaves is proved (docs/PROVED.md), and not shown by this.
#
#     bench/kill.sh [ROUNDS]
#
# There are 20 rounds where no number is given. A line tells each round, and the last one is `lost N`, with the number of
# keys that were answered and are not there, or hold something else. The status is 1 where that is not 0. Needs python3.
set -eu
top=$(cd -- "$(dirname -- "$0")/.." && pwd)
rounds=${1:-20}
work=$(mktemp -d)
trap 'rm -rf "$work"' EXIT
mkdir "$work/empty" "$work/store"
"$top/kvr" script --dir "$work/empty" < /dev/null
program="$top/crates/kvr/out/kvr"

python3 - "$program" "$work" "$rounds" <<'PYTHON'
import os
import random
import socket
import subprocess
import sys
import threading
import time

program, work, rounds = sys.argv[1], sys.argv[2], int(sys.argv[3])
# requests on their way
depth = 16
# a server is killed within so many seconds from its first answer
longest = 0.5


def request(*words):
    return b"*%d\r\n" % len(words) + b"".join(b"$%d\r\n%s\r\n" % (len(w), w) for w in words)


def key(number):
    return b"key:%d" % number


# A server over the store, and a link to it.
def start():
    with socket.socket() as free:
        free.bind(("127.0.0.1", 0))
        port = free.getsockname()[1]
    path = os.path.join(work, "kvr.toml")
    with open(path, "w") as conf:
        conf.write('dir = "%s"\nlisten = "127.0.0.1:%d"\n' % (os.path.join(work, "store"), port))
    server = subprocess.Popen([program, "serve", "--conf", path], stdout=subprocess.PIPE)
    if server.stdout.readline() != b"ready\n":
        sys.exit("the server is not ready, and ended with status %d" % server.wait())
    return server, socket.create_connection(("127.0.0.1", port))


# Sets the keys from this number on, until the link is cut. How many of them were sent, and how many were answered.
def write(link, first):
    sent = answered = 0
    answers = b""
    try:
        while True:
            numbers = range(first + sent, first + sent + depth)
            link.sendall(b"".join(request(b"SET", key(n), b"%d" % n) for n in numbers))
            sent += depth
            while answered < sent:
                more = link.recv(65536)
                if not more:
                    return sent, answered
                lines = (answers + more).split(b"\r\n")
                answers = lines.pop()
                if any(line != b"+OK" for line in lines):
                    sys.exit("SET was answered %r" % lines)
                answered += len(lines)
    except OSError:
        return sent, answered


# Which of these numbers are not there, or have another value.
def lost_of(link, numbers):
    lost = []
    answers = link.makefile("rb")
    for at in range(0, len(numbers), 1000):
        some = numbers[at : at + 1000]
        link.sendall(b"".join(request(b"GET", key(n)) for n in some))
        for number in some:
            length = int(answers.readline()[1:])
            value = answers.read(length + 2)[:-2] if length >= 0 else None
            if value != b"%d" % number:
                lost.append(number)
    return lost


known = []
number = 0
lost = set()
for turn in range(1, rounds + 1):
    server, link = start()
    lasts = random.uniform(0, longest)
    timer = threading.Timer(lasts, server.kill)
    timer.start()
    sent, answered = write(link, number)
    timer.join()
    server.wait()
    link.close()
    known.extend(range(number, number + answered))
    number += sent
    server, link = start()
    lost.update(lost_of(link, known))
    server.kill()
    server.wait()
    link.close()
    print("round %d: killed after %.3f s, %d keys answered, %d in all, lost %d" % (turn, lasts, answered, len(known), len(lost)))
print("lost %d" % len(lost))
sys.exit(1 if lost else 0)
PYTHON
