#!/bin/sh
# Refuses each growth of the built program in turn, once, and looks what its answers are then.
#
#   docs/tools/refused_growths.sh crates/mspdbsrv/out/mspdbsrv
#
# It wants `cc` and `python3`. A small library in front of the C library counts the calls of `malloc` and `realloc`
# and answers NULL at one of them. For each number of a call, from 1 on until a run makes fewer:
#
#   check    over a file of 4,200 types: its two lines, or `out of memory` with nothing printed (the opening of a file)
#   session  adds, gets, counts and commits, each frame sent twice in a row (the making of the buffers, adds, and the
#            plans of commits)
#   serve    the same by a client of a socket (the hub, its journal, and the beginning of a commit)
#
# A frame that is answered as `out of memory` (code 7) is sent again as the next one, which has to be answered as if
# the first had not been sent: an add gets the index that it gets where nothing is refused, a commit the number that
# follows the last, and so do all that come later. Behind each run the file holds the records of the run in which
# nothing is refused, under the last number that was answered; where the program ends at once, the file's bytes are
# as they were. It prints how many growths were refused at which kind of frame, and ends with 1 at the first that goes
# otherwise.
set -eu
program=$(realpath "$1")
folder=$(mktemp -d)
trap 'rm -rf "$folder"' EXIT
cat > "$folder/refuse.c" <<'END'
#define _GNU_SOURCE
#include <dlfcn.h>
#include <stdatomic.h>
#include <stdlib.h>
#include <unistd.h>
static atomic_long calls;
static long at = -1;
static void *(*next_malloc)(size_t);
static void *(*next_realloc)(void *, size_t);
__attribute__((constructor)) static void begin(void) {
    next_malloc = dlsym(RTLD_NEXT, "malloc");
    next_realloc = dlsym(RTLD_NEXT, "realloc");
    const char *text = getenv("REFUSE_AT");
    at = text ? atol(text) : -1;
    atomic_store(&calls, 0);
}
static int refused(void) {
    if (atomic_fetch_add(&calls, 1) + 1 != at) return 0;
    ssize_t n = write(2, "refused\n", 8);
    (void)n;
    return 1;
}
void *malloc(size_t size) {
    if (!next_malloc) next_malloc = dlsym(RTLD_NEXT, "malloc");
    return refused() ? NULL : next_malloc(size);
}
void *realloc(void *old, size_t size) {
    if (!next_realloc) next_realloc = dlsym(RTLD_NEXT, "realloc");
    return refused() ? NULL : next_realloc(old, size);
}
END
cc -shared -fPIC -O1 -o "$folder/refuse.so" "$folder/refuse.c" -ldl
cat > "$folder/run.py" <<'END'
import collections, os, shutil, socket, struct, subprocess, sys, threading, time

program, folder = sys.argv[1:]
kinds = {2: "AddType", 3: "AddItem", 4: "AddName", 5: "GetType", 6: "GetItem", 7: "GetName",
         8: "Commit", 9: "Counts", 10: "Bye"}
COMMIT = 8


def frame(kind, body=b""):
    return struct.pack("<IB", 1 + len(body), kind) + body


def modifier(k):
    return bytes.fromhex("0a00011074000000") + struct.pack("<H", k) + b"\xf2\xf1"


def item(k):
    return bytes.fromhex("0a00051600000000") + bytes([97 + k]) + b"\0\xf2\xf1"


# Each request twice in a row, and a Bye. The table of types grows past 4,096 records, from where it has more chains.
requests = []
for k in range(4200):
    requests.append(frame(2, modifier(k)))
for k in range(20):
    requests.append(frame(3, item(k)))
    requests.append(frame(4, b"name %d" % k))
requests += [frame(8), frame(9), frame(5, struct.pack("<I", 0x1000)), frame(6, struct.pack("<I", 0x1001)),
             frame(7, struct.pack("<I", 1))]
for k in range(4200, 4300):
    requests.append(frame(2, modifier(k)))
requests += [frame(4, b"one name more"), frame(8), frame(9)]
sent = [r for r in requests for _ in range(2)] + [frame(10)]
text = b"".join(sent)


def environment(at):
    # the client's own loader wants no library in front of it
    return dict(os.environ, LD_PRELOAD=folder + "/refuse.so", REFUSE_AT=str(at))


def run(words, at=None, given=b""):
    done = subprocess.run([program] + words, input=given, capture_output=True,
                          env=environment(at) if at else None, timeout=60)
    return done.returncode, done.stdout, done.stderr


def frames_of(data):
    all, at = [], 0
    while at < len(data):
        size = struct.unpack_from("<I", data, at)[0]
        all.append(data[at:at + 4 + size])
        at += 4 + size
    return all


def fail(where, why):
    sys.exit("%s: %s" % (where, why))


WANT = frame(0xFF, struct.pack("<BII", 7, 0, 0))


def judge(where, replies, plain, counts):
    # Compares replies with those of the run in which nothing is refused. Gives the last number and what was refused.
    if len(replies) != len(sent):
        fail(where, "%d replies to %d frames" % (len(replies), len(sent)))
    number, refused = 1, []
    for i, (reply, usual) in enumerate(zip(replies, plain)):
        kind = sent[i][4]
        if reply == WANT:
            refused.append(kind)
            counts[kinds[kind]] += 1
            continue
        if kind == COMMIT:
            number += 1
            usual = frame(0x88, struct.pack("<I", number))
        if reply != usual:
            fail(where, "frame %d of kind %s: %s and not %s" % (i, kinds[kind], reply.hex(), usual.hex()))
    if len(refused) > 1:
        fail(where, "more than one frame lacked memory")
    return number, refused


def records(path):
    status, out, _ = run(["dump", path])
    if status:
        fail(path, "it does not open")
    lines = out.decode().splitlines()
    return lines[1], [l for l in lines if l.split()[0] in ("type", "item", "name")]


def holds(where, path, number, wanted):
    line, got = records(path)
    if not line.startswith("pdb age=%d " % number) or got != wanted:
        fail(where, "the file holds something else: " + line)


def served(path, at):
    # A server's status and line, the replies to its client, and whether a growth was refused.
    listen = folder + "/socket"
    if os.path.exists(listen):
        os.unlink(listen)
    server = subprocess.Popen([program, "serve", path, "--listen", listen, "--sessions", "1", "--workers", "1"],
                              stdout=subprocess.PIPE, stderr=subprocess.PIPE, env=environment(at) if at else None)
    client = socket.socket(socket.AF_UNIX)
    while server.poll() is None:
        try:
            client.connect(listen)
            break
        except OSError:
            time.sleep(0.002)
    replies = b""
    if server.poll() is None:
        sender = threading.Thread(target=send, args=(client,))
        sender.start()
        while True:
            try:
                more = client.recv(1 << 16)
            except OSError:
                break
            if not more:
                break
            replies += more
        sender.join()
    client.close()
    out, errors = server.communicate(timeout=60)
    return server.returncode, out.decode(), errors, replies


def send(client):
    try:
        client.sendall(text)
    except OSError:
        pass


def numbers_in(line):
    return dict(part.split("=") for part in line.split()[1:])


new = folder + "/new.pdb"
if run(["init", new])[0]:
    fail("init", "no new file")
path = folder + "/t.pdb"

shutil.copy(new, path)
status, out, _ = run(["session", path], None, text)
plain = frames_of(out)
last, none = judge("session", plain, plain, collections.Counter())
wanted = records(path)[1]
full = folder + "/full.pdb"
shutil.copy(path, full)

lines = run(["check", full])[1]
at, early = 1, 0
while True:
    status, out, errors = run(["check", full], at)
    if b"refused" not in errors:
        break
    if status == 8 and out == b"":
        early += 1
    elif (status, out) != (0, lines):
        fail("check, growth %d" % at, "status %d" % status)
    at += 1
print("check: %d growths refused, %d times out of memory" % (at - 1, early))

at, early, counts = 1, 0, collections.Counter()
while True:
    shutil.copy(new, path)
    status, out, errors = run(["session", path], at, text)
    where = "session, growth %d" % at
    if b"refused" not in errors:
        break
    if status == 8:
        if out or open(path, "rb").read() != open(new, "rb").read():
            fail(where, "it ended and something was done")
        early += 1
    else:
        if status:
            fail(where, "status %d" % status)
        number, _ = judge(where, frames_of(out), plain, counts)
        holds(where, path, number, wanted)
    at += 1
print("session: %d growths refused, %d times it ended at once, and by frame %s" % (at - 1, early, dict(counts)))

shutil.copy(new, path)
status, line, _, out = served(path, None)
usual = numbers_in(line)
judge("serve", frames_of(out), plain, collections.Counter())
at, early, counts = 1, 0, collections.Counter()
while True:
    shutil.copy(new, path)
    status, line, errors, out = served(path, at)
    where = "serve, growth %d" % at
    if b"refused" not in errors:
        break
    if status:
        if status not in (8, 11) or out or open(path, "rb").read() != open(new, "rb").read():
            fail(where, "status %d, and something was done" % status)
        early += 1
    else:
        number, refused = judge(where, frames_of(out), plain, counts)
        holds(where, path, number, wanted)
        # What lacked memory has no entry: one is missing, or the two of a commit.
        less = sum(2 if kind == COMMIT else 1 for kind in refused)
        got = numbers_in(line)
        if int(got["calls"]) != int(usual["calls"]) - less or int(got["commit"]) != number:
            fail(where, line)
    at += 1
print("serve: %d growths refused, %d times it ended at once, and by frame %s" % (at - 1, early, dict(counts)))
END
python3 "$folder/run.py" "$program" "$folder"
