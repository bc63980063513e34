#!/usr/bin/env python3
"""Lets each call of the system fail once, in each command, and looks at what is stored: bench/failing.py [KAPD] [WORD]

By the built program KAPD (crates/kapd/out/kapd, which `rt run` in crates/kapd builds), on folders of its own, with
bench/failing.c loaded before the C library (by LD_PRELOAD; cc or clang builds it). Each command below, or those whose
names have WORD in them, is run once as it is, to list its calls on the folder's files and on standard input and output.
Then it is run again for each kind of call, with the first, the second and so on failing by EIO, by ENOSPC, by EINTR, with
half of the bytes, or with half and a full disk behind it, up to a number at which none is left. It asks of each run:

- the status is 73 where a call on a file failed, 71 where a read of the input did, 72 where a write of the output did, and
  0 where the call was made again (EINTR of those RETRIED) or only half of the bytes went; and standard error says so. No
  other status comes, nor is memory ever wanted (70);
- at 0 the output is what the whole command writes, else a beginning of that;
- the store opens, and the lists (`tasks`, `topics`, `alerts`, `export`) are those before the command or those behind it: at
  0 and 72 those behind it, at 71 those before it, at 73 either. Opening it again changes no byte of the files. Behind an
  `init` that failed, `init` makes the store, or says that it exists;
- those lists themselves are right: `alerts` is what a replay of `export` prints of the same tasks.

`serve` and `serve --single` are run so too, while the requests below come over a link: each run ends with 73 before it
listens, or goes on to serve; each request is answered as in the run in which nothing fails, or by 500 where a call failed
while it was answered, and the next one is not, but where a full disk stays full. Behind it, when the service is killed,
the lists are those of all that was answered 200 or 204, with what was answered 500 or without it, never in part.

With the WORD `memory` each allocation finds no memory in turn, once alone and once with all behind it, in other runs:
those of MEMORY and services. More than some thousand allocations are tried only in part: the first ones, and then each
so many. The status is 70 (or 73, where a file's opening found none; where all behind it fail too, that may be told in the
words of 70), or 0 with the whole output; of a request 503, or the link ends, or the reply is the one that is due; what is
stored is as above, and a service serves on, where not all allocations fail. It doesn't come to serve, or ends, with 70, 73
or 74 (a socket that found none).

And of the runs in which nothing fails: what was written is synced before the file is written again, and before the end, and
a file's first sync is followed by one of the folder. So a sync that does nothing is refused here. It ends with status 1 if
anything isn't so."""
import collections
import concurrent.futures
import hashlib
import itertools
import json
import os
import shutil
import socket
import subprocess
import sys
import tempfile
import threading

TOP = os.path.dirname(os.path.dirname(os.path.abspath(__file__)))
KAPD = sys.argv[1] if len(sys.argv) > 1 else f"{TOP}/crates/kapd/out/kapd"
WORD = sys.argv[2] if len(sys.argv) > 2 else ""
WORK = os.path.realpath(tempfile.mkdtemp(prefix="failing-", dir="/dev/shm" if os.path.isdir("/dev/shm") else None))
LIBRARY = f"{WORK}/failing.so"
FILES = ["head", "left", "right"]
LISTS = ["tasks", "topics", "alerts", "export"]
SCRIPTS = {
    "high": "stream|from().measurement('m').groupBy('host')|alert().crit(lambda: \"x\" > 90)",
    "mean": "stream|from().measurement('m')|window().periodCount(7).everyCount(5)|max('x')|alert().warn(lambda: \"max\" > 95)",
}
PAIRS = [word for pair in SCRIPTS.items() for word in pair]
OTHER = "stream|from()|alert().crit(lambda: \"x\" > 5)"
# How a call can fail, and the calls that are made again where a signal came between.
HOWS = {name: ["EIO", "EINTR"] for name in ("fsync", "fdatasync", "flock", "statx")}
HOWS.update({name: ["EIO", "EINTR", "HALF"] for name in ("pread", "read")})
HOWS.update({name: ["EIO", "ENOSPC", "EINTR", "HALF", "FULL"] for name in ("pwrite", "write")})
HOWS.update({name: ["EIO", "ENOSPC", "EINTR"] for name in ("open", "ftruncate")})
RETRIED = {"pwrite", "open", "fsync", "fdatasync", "ftruncate", "flock"}
WRONG, LOOKED, RUNS = [], {}, collections.Counter()


def env_of(library, log):
    env = dict(os.environ)
    if library is not None:
        env.update(LD_PRELOAD=LIBRARY, FAILING_LOG=log, ASAN_OPTIONS="verify_asan_link_order=0", **library)
    return env


def calls_in(log):
    """The calls that a log tells, which is removed."""
    calls = []
    if os.path.exists(log):
        with open(log, encoding="utf-8") as lines:
            calls = [line.rstrip("\n").split(" ", 2) for line in lines]
        os.remove(log)
    return calls


def run(words, given=b"", library=None, lane=""):
    """A command: its status, what it wrote, what it said, and its calls: name, how it failed (or -), and file."""
    log, name = f"{WORK}/log{lane}", f"{WORK}/input{lane}-{threading.get_ident()}"
    with open(name, "wb") as file:
        file.write(given)
    with open(name, "rb") as file:
        env = env_of(library, log)
        done = subprocess.run([KAPD, *words], stdin=file, capture_output=True, env=env, timeout=120, check=False)
    os.remove(name)
    return done.returncode, done.stdout, done.stderr.decode(), calls_in(log)


def call(folder, words, given=b""):
    status, wrote, said, _ = run([folder, *words], given)
    if status:
        sys.exit(f"failing.py: {words[0]} ended with {status}: {said}")
    return wrote


def points(first, count):
    return "".join(f"m,host=h{at % 3} x={(at * 37) % 101}i,at={at}i {at}\n" for at in range(first, first + count)).encode()


def bytes_of(folder):
    found = {}
    for name in FILES:
        if os.path.exists(f"{folder}/{name}"):
            with open(f"{folder}/{name}", "rb") as file:
                found[name] = file.read()
    return found


def without_last_transitions(folder):
    """Closes the gate of the first record of transitions behind the last one of points."""
    with open(f"{folder}/left", "r+b") as file:
        log, at, last = file.read(), 8, 0
        while log[at] == 0xA5:
            if log[at + 5] in (5, 6) and not (log[at + 5] == 6 and log[last + 5] == 6):
                last = at
            at += 5 + int.from_bytes(log[at + 1:at + 5], "big")
        if log[last + 5] != 6:
            sys.exit("failing.py: there is no record of transitions to be taken away")
        file.seek(last)
        file.write(b"\0")


def stores():
    """The folders that commands begin with, each going on from the one before it but for the last."""
    steps = [
        ("none", []),
        ("empty", [(["init"], b"")]),
        ("defined", [(["define", name], script.encode()) for name, script in SCRIPTS.items()]),
        ("enabled", [(["enable", name], b"") for name in SCRIPTS]),
        ("stored", [(["write", "d", "r"], points(at, 20)) for at in (0, 20, 40)]),
        ("many", [(["write", "d", "r"], points(60, 5000))]),
    ]
    made = f"{WORK}/made"
    os.mkdir(made)
    for name, changes in steps:
        for words, given in changes:
            call(made, words, given)
        shutil.copytree(made, f"{WORK}/{name}")
    shutil.copytree(f"{WORK}/stored", f"{WORK}/behind")
    without_last_transitions(f"{WORK}/behind")


COMMANDS = [
    ("none", ["init"], b""),
    ("empty", ["define", "high"], SCRIPTS["high"].encode()),
    ("stored", ["define", "other"], OTHER.encode()),
    ("defined", ["enable", "high"], b""),
    ("enabled", ["write", "d", "r"], points(0, 20)),
    ("stored", ["write", "d", "r"], points(60, 20)),
    ("stored", ["write", "d", "r"], points(60, 5000)),
    ("stored", ["disable", "mean"], b""),
    ("stored", ["delete", "mean"], b""),
    ("stored", ["compact"], b""),
    ("many", ["compact"], b""),
    *[(name, [words], b"") for name in ("stored", "behind") for words in LISTS],
    ("behind", ["write", "d", "r"], points(60, 20)),
    ("behind", ["compact"], b""),
    ("stored", ["check"], OTHER.encode()),
    ("stored", ["replay", *PAIRS], b""),
]


def looked(folder, wrongs):
    """The lists of a store, which a second opening leaves as they are; None where it doesn't open."""
    key = hashlib.sha256(repr(sorted(bytes_of(folder).items())).encode()).digest()
    if key in LOOKED:
        return LOOKED[key]
    lists = [run([folder, name])[:2] for name in LISTS]
    opened = bytes_of(folder)
    again = [run([folder, name])[:2] for name in LISTS]
    if any(status for status, _ in lists):
        wrongs.append(f"the store doesn't open: {[status for status, _ in lists]}")
    if again != lists or bytes_of(folder) != opened:
        wrongs.append("opening it again changes it")
    LOOKED[key] = [text for _, text in lists]
    return LOOKED[key]


def look_at_alerts(name, lists):
    """That the alerts are those of a replay of the export, where just the two tasks are enabled that saw all points."""
    enabled = [line.split()[0] for line in lists[0].decode().splitlines() if line.endswith(" enabled")]
    if not lists[3] or enabled != sorted(SCRIPTS):
        return
    told = [line for line in call("-", ["replay", *PAIRS], lists[3]).splitlines() if line.startswith(b"alert ")]
    if lists[2].splitlines() != told:
        WRONG.append(f"{name}: the alerts aren't those of a replay of the export")


def right_statuses(calls):
    """The statuses that may come behind the calls that failed."""
    failed = [(name, how, file) for name, how, file in calls if how != "-"]
    right = set()
    for name, how, file in failed:
        status = {"standard input": 71, "standard output": 72}.get(file, 73)
        is_whole = how == "HALF" or (how == "EINTR" and name in RETRIED)
        right |= {0} if is_whole else {0, status} if how == "FULL" and len(failed) == 1 else {status}
    return right


def look_at_syncs(name, calls, folder):
    """That what is written is synced before the file is written again, and before the end, and the folder where a file is
    made: so nothing that was acknowledged waits for a later sync, and no gate opens before its record."""
    waiting, made, known = set(), set(), set()
    for kind, _, file in calls:
        if kind in ("pwrite", "ftruncate"):
            if kind == "pwrite" and (kind, file) in waiting:
                WRONG.append(f"{name}: {file} is written before what was written is synced")
            waiting.add((kind, file))
        elif kind == "fdatasync":
            waiting -= {("pwrite", file), ("ftruncate", file)}
            made |= {file} - known
            known.add(file)
        elif kind == "fsync" and file == folder:
            made.clear()
    if waiting or made or not known:
        WRONG.append(f"{name}: not synced: {waiting} {made}")


def fail_each(store, words, given):
    name = f"{store}: {' '.join(words[:3] if words[0] != 'replay' else words[:1])} of {len(given)} bytes"
    folder = f"{WORK}/folder"

    def fresh():
        shutil.rmtree(folder, ignore_errors=True)
        shutil.copytree(f"{WORK}/{store}", folder)

    fresh()
    before = looked(folder, WRONG) if store != "none" else None
    fresh()
    status, due, said, calls = run([folder, *words], given, {"FAILING_IN": folder})
    if status:
        sys.exit(f"failing.py: {name} ended with {status}: {said}")
    if words[0] not in ("check", "replay"):
        look_at_syncs(name, calls, folder)
    behind = looked(folder, WRONG)
    for lists in (before, behind):
        if lists:
            look_at_alerts(name, lists)
    counts = collections.Counter(kind for kind, _, _ in calls)
    ended = collections.Counter()
    for kind in counts:
        for how in HOWS[kind]:
            at = 0
            while True:
                at += 1
                fresh()
                library = {"FAILING_IN": folder, "FAILING_CALL": kind, "FAILING_AT": str(at), "FAILING_HOW": how}
                status, wrote, said, calls = run([folder, *words], given, library)
                if all(failed == "-" for _, failed, _ in calls):
                    break
                ended[f"{status} by {kind} {how}"] += 1
                RUNS[status] += 1
                for wrong in wrongs_of(words, folder, (status, wrote, said), calls, (due, before, behind)):
                    WRONG.append(f"{name}: {kind} {at} {how}: {wrong}")
            if status or at <= counts[kind]:
                WRONG.append(f"{name}: {kind} {how}: status {status} where nothing failed, at {at} of {counts[kind]}")
    print(f"{name}: {dict(counts)}", flush=True)
    for how in sorted(ended):
        print(f"    {how}: {ended[how]}", flush=True)


def wrongs_of(words, folder, ran, calls, wants):
    """What is wrong behind a run in which a call failed."""
    (status, wrote, said), (due, before, behind), wrongs = ran, wants, []
    if status not in right_statuses(calls):
        wrongs.append(f"status {status}, and not of {right_statuses(calls)}: {said}")
    if (status == 0 and wrote != due) or not due.startswith(wrote):
        wrongs.append(f"{len(wrote)} bytes were written")
    texts = {0: "", 71: "kapd: read fault\n", 72: "kapd: write fault\n", 73: "kapd: disk fault\n"}
    if said != texts.get(status):
        wrongs.append(f"it said {said!r}")
    if words == ["init"] and status:
        again = run([folder, "init"])[0]
        if again not in (0, 8):
            wrongs.append(f"init behind it ended with {again}")
    lists = looked(folder, wrongs)
    if lists != behind and (lists != before or status in (0, 72)):
        wrongs.append("the lists are neither those before nor those behind, or the change is lost")
    if status == 71 and lists != before:
        wrongs.append("something was stored of an input that wasn't read")
    return wrongs


# What a client asks of a service, one after the other: the method, the target, the body, and the command that changes
# the store so. None depends on another one.
REQUESTS = [
    ("POST", "/kapacitor/v1/write?db=d&rp=r", points(60, 20), ["write", "d", "r"]),
    ("POST", "/kapacitor/v1/tasks", json.dumps({"id": "other", "script": OTHER}).encode(), ["define", "other"]),
    ("GET", "/kapacitor/v1/tasks", b"", None),
    ("PATCH", "/kapacitor/v1/tasks/mean", b'{"status":"disabled"}', ["disable", "mean"]),
    ("POST", "/write?db=d&rp=r&precision=ns", points(80, 20), ["write", "d", "r"]),
    ("GET", "/kapacitor/v1/alerts/topics", b"", None),
    ("DELETE", "/kapacitor/v1/tasks/high", b"", ["delete", "high"]),
    ("GET", "/kapacitor/v1/ping", b"", None),
]
BEHIND = {}


def lists_behind(store, done):
    """The lists of a store behind the requests with these numbers, made by commands."""
    key = (store, done)
    if key not in BEHIND:
        folder = tempfile.mkdtemp(dir=WORK)
        shutil.copytree(f"{WORK}/{store}", folder, dirs_exist_ok=True)
        for at in done:
            _, _, body, words = REQUESTS[at]
            call(folder, words, OTHER.encode() if words[0] == "define" else body if words[0] == "write" else b"")
        BEHIND[key] = looked(folder, WRONG)
        shutil.rmtree(folder)
    return BEHIND[key]


class Client:
    """Asks a service on one link, and on another one where that has ended."""

    def __init__(self, port):
        self.port, self.link = port, None

    def ask(self, method, target, body):
        """The reply's status and body; None where the link ended before it was whole."""
        head = f"{method} {target} HTTP/1.1\r\nContent-Length: {len(body)}\r\n\r\n"
        try:
            if self.link is None:
                self.link = socket.create_connection(("127.0.0.1", self.port), timeout=10)
            self.link.sendall(head.encode() + body)
            reply = b""
            while b"\r\n\r\n" not in reply:
                reply += self.more()
            front, _, came = reply.partition(b"\r\n\r\n")
            lines = front.decode().lower().split("\r\n")
            length = sum(int(line.split(":")[1]) for line in lines if line.startswith("content-length:"))
            while len(came) < length:
                came += self.more()
            if "connection: close" in lines:
                self.end()
            return int(lines[0].split()[1]), came
        except OSError:
            self.end()
            return None

    def more(self):
        piece = self.link.recv(65536)
        if not piece:
            raise OSError("the link ended")
        return piece

    def end(self):
        if self.link is not None:
            self.link.close()
        self.link = None


def serve(folder, options, library=None, lane="", again=False):
    """A service that is asked all of REQUESTS, and the last one twice more where `again`, and is killed then: its status
    where it ended by itself, what it said, the replies, and its calls."""
    log = f"{WORK}/log{lane}"
    words = [KAPD, folder, "serve", "--addr", "127.0.0.1:0", *options]
    process = subprocess.Popen(words, stderr=subprocess.PIPE, text=True, env=env_of(library, log))
    timer = threading.Timer(60, process.kill)
    timer.start()
    said, replies = process.stderr.readline(), []
    if said.startswith("kapd: listening on 127.0.0.1:"):
        client = Client(int(said.rsplit(":", 1)[1]))
        replies = [client.ask(*request[:3]) for request in REQUESTS]
        if again:
            replies += [client.ask(*REQUESTS[-1][:3]) for _ in range(2)]
        client.end()
    else:
        process.wait(timeout=60)
        said += process.stderr.read()
    timer.cancel()
    status = process.poll()
    process.kill()
    process.wait()
    process.stderr.close()
    return status, said, replies, calls_in(log)


def wrongs_of_service(store, folder, came, dues, failed):
    """What is wrong of a service's replies, of which those in `failed` are none that are due; and of the store."""
    status, said, replies, _ = came
    wrongs, done, maybe = [], [], []
    if status is not None or len(replies) < len(REQUESTS):
        wrongs.append(f"it ended with {status}: {said}")
    for at, (reply, due) in enumerate(zip(replies, dues)):
        if REQUESTS[at][3] and (reply is None or reply[0] in failed):
            maybe.append(at)
        elif REQUESTS[at][3]:
            done.append(at)
        shown = reply and reply[0]
        if shown not in failed and shown != due[0]:
            wrongs.append(f"request {at + 1} is answered {shown}")
        elif shown == due[0] and REQUESTS[at][3] and reply != due:
            wrongs.append(f"request {at + 1} is answered {reply}")
    lists, right = looked(folder, wrongs), False
    for count in range(len(maybe) + 1):
        for more in itertools.combinations(maybe, count):
            right = right or lists == lists_behind(store, tuple(sorted([*done, *more])))
    if not right:
        wrongs.append(f"the lists aren't those of what was answered {[reply and reply[0] for reply in replies]}")
    return wrongs


def fresh(store, folder):
    shutil.rmtree(folder, ignore_errors=True)
    shutil.copytree(f"{WORK}/{store}", folder)


def fail_each_of_service(store, options):
    """A service on a store, in which each call on a file fails in turn."""
    name, folder = f"{store}: serve {' '.join(options)}".strip(), f"{WORK}/folder"
    before = looked_at(store)
    fresh(store, folder)
    came = serve(folder, options, {"FAILING_IN": folder})
    status, said, dues, calls = came
    if status is not None or [due and due[0] for due in dues] != [204, 200, 200, 200, 204, 200, 204, 204]:
        sys.exit(f"failing.py: {name} ended with {status}, or answered {dues}: {said}")
    look_at_syncs(name, calls, folder)
    for wrong in wrongs_of_service(store, folder, came, dues, []):
        WRONG.append(f"{name}: {wrong}")
    counts, ended = collections.Counter(kind for kind, _, _ in calls), collections.Counter()
    for kind in counts:
        for how in HOWS[kind]:
            for at in itertools.count(1):
                fresh(store, folder)
                library = {"FAILING_IN": folder, "FAILING_CALL": kind, "FAILING_AT": str(at), "FAILING_HOW": how}
                came = serve(folder, options, library)
                status, said, replies, calls = came
                if all(failed == "-" for _, failed, _ in calls):
                    break
                wrongs, fails = [], right_statuses(calls) != {0}
                statuses = [reply and reply[0] for reply in replies]
                if status is not None:
                    if not fails or status != 73 or said != "kapd: disk fault\n" or looked(folder, wrongs) != before:
                        wrongs.append(f"it ended with {status}: {said}")
                else:
                    wrongs += wrongs_of_service(store, folder, came, dues, [500] if fails else [])
                    if fails and how != "FULL" and statuses.count(500) != 1:
                        wrongs.append(f"{statuses.count(500)} requests are answered 500")
                ended[f"{status or f'{statuses.count(500)} of 500'} by {kind} {how}"] += 1
                RUNS[status or f"serving, {statuses.count(500)} of 500"] += 1
                WRONG.extend(f"{name}: {kind} {at} {how}: {wrong}" for wrong in wrongs)
            if at <= counts[kind]:
                WRONG.append(f"{name}: {kind} {how}: nothing failed at {at} of {counts[kind]}")
    print(f"{name}: {dict(counts)}", flush=True)
    for how in sorted(ended):
        print(f"    {how}: {ended[how]}", flush=True)


def tell_wrongs(begun=[0]):
    """Tells what is wrong as soon as a part has ended."""
    for wrong in WRONG[begun[0]:]:
        print(f"failing.py: {wrong}", file=sys.stderr, flush=True)
    begun[0] = len(WRONG)


def looked_at(store):
    """The lists of a store, looked at on a copy."""
    fresh(store, f"{WORK}/looked")
    return looked(f"{WORK}/looked", WRONG)


# The runs in which allocations find no memory: on which store, the words, and the input; services have no words.
ROW = "stream|from().measurement('cpu')|alert().crit(lambda: int(\"usage_idle\") < 70).log('/tmp/alerts.log')"
CPU = "".join(f"d\nr\ncpu,host=a usage_idle={idle}i {at}000000000\n" for at, idle in ((1, 100), (2, 60), (3, 80)))
THREE = b"m x=1i 1\nm x=9i 2\nm x=1i 3\n"
MEMORY = [
    ("-", ["replay", "cpu_alert", ROW], CPU.encode()),
    ("-", ["check"], ROW.encode()),
    ("none", ["init"], b""),
    ("empty", ["define", "c"], OTHER.encode()),
    ("row-defined", ["enable", "c"], b""),
    ("row-enabled", ["write", "d", "r"], THREE),
    ("row-18", ["define", "e"], OTHER.encode()),
    ("row-18", ["write", "d", "r"], b"m x=9i 4\n"),
    ("row-18", ["compact"], b""),
    *[("row-18", [words], b"") for words in LISTS],
    ("row-18", ["write", "d", "r"], "".join(f"m x={at % 9}i {at}\n" for at in range(4, 5004)).encode()),
    ("stored", ["compact"], b""),
    ("stored", None, b""),
]
ALL, SOME = 1500, 1500 # so many allocations are all tried, and of further ones so many


def row_stores():
    """The folders of MEMORY that the other ones don't have."""
    made = f"{WORK}/made-18"
    shutil.copytree(f"{WORK}/empty", made)
    for name, words, given in (
        ("row-defined", ["define", "c"], OTHER.encode()),
        ("row-enabled", ["enable", "c"], b""),
        ("row-18", ["write", "d", "r"], THREE),
    ):
        call(made, words, given)
        shutil.copytree(made, f"{WORK}/{name}")


def want_once(store, words, given, how, at, lane):
    """A run in which an allocation finds no memory: whether it came to that, and what it answered."""
    folder = f"{WORK}/folder{lane}"
    if store != "-":
        fresh(store, folder)
    library = {"FAILING_CALL": "malloc", "FAILING_AT": str(at), "FAILING_HOW": how}
    if words is None:
        came = serve(folder, [], library, lane, again=True)
    else:
        came = run([folder if store != "-" else "-", *words], given, library, lane)
    return any(made[0] == "malloc" for made in came[3]), folder, came


def wrongs_of_want(store, words, how, folder, came, wants):
    """What is wrong of a command that found no memory once, or from then on."""
    (status, wrote, said, _), (due, before, behind), wrongs = came, wants, []
    texts = {0: "", 70: "kapd: no memory\n", 73: "kapd: disk fault\n"}
    if status not in texts or (status == 73 and store == "-"):
        return [f"status {status}: {said}"]
    if said != texts[status] and not (how == "FULL" and status and said == texts[70]):
        wrongs.append(f"status {status}, and it said {said!r}")
    if (status == 0 and wrote != due) or not due.startswith(wrote):
        wrongs.append(f"{len(wrote)} bytes were written")
    if store == "none" and status:
        again = run([folder, "init"])[0]
        if again not in (0, 8):
            wrongs.append(f"init behind it ended with {again}")
    if store != "-":
        lists = looked(folder, wrongs)
        if lists != behind and (lists != before or status == 0):
            wrongs.append("the lists are neither those before nor those behind, or the change is lost")
    return wrongs


def wrongs_of_want_in_service(store, how, folder, came, wants):
    """The same of a service."""
    (status, said, replies, _), (dues, before) = came, wants
    if not replies or (status is not None and not any(replies)):
        wrongs = [] if status in (70, 73, 74) else [f"it ended with {status}: {said}"]
        if looked(folder, wrongs) != before:
            wrongs.append("a service that didn't come to serve has changed the store")
        return wrongs
    ended = None if status == 74 and how == "FULL" else status
    wrongs = wrongs_of_service(store, folder, (ended, said, replies[:-2], []), dues, [503, None])
    if how != "FULL" and dues[-1] not in replies[-2:]:
        wrongs.append(f"the last requests are answered {replies[-2:]}")
    return wrongs


def want_each(store, words, given):
    """A run, in which allocations find no memory in turn, on four folders at once."""
    name = f"{store}: {' '.join(words[:1]) if words else 'serve'} of {len(given)} bytes, memory"
    folder = f"{WORK}/folder"
    if store != "-":
        fresh(store, folder)
    before = None if store in ("-", "none") else looked_at(store)
    if words is None:
        status, said, dues, _ = serve(folder, [])
        wants = (dues, before)
    else:
        status, due, said, _ = run([folder if store != "-" else "-", *words], given)
        wants = (due, before, looked(folder, WRONG) if store != "-" else None)
    if status:
        sys.exit(f"failing.py: {name} ended with {status}: {said}")
    least, most = 0, 1
    while want_once(store, words, given, "ONE", most, "0")[0]:
        least, most = most, most * 2
    while most - least > 1:
        middle = (least + most) // 2
        least, most = (middle, most) if want_once(store, words, given, "ONE", middle, "0")[0] else (least, middle)
    step = max(1, (least - ALL) // SOME)
    numbers = [*range(1, min(least, ALL) + 1), *range(ALL + 1, least + 1, step)]
    ended = collections.Counter()

    def look(lane, how, at):
        calls, place, came = want_once(store, words, given, how, at, lane)
        if words is None:
            wrongs = wrongs_of_want_in_service(store, how, place, came, wants)
            told = str(came[0]) if not came[2] else " ".join(
                sorted({str(reply and reply[0]) for reply in came[2]} & {"503", "None"})) or "all answered"
        else:
            wrongs, told = wrongs_of_want(store, words, how, place, came, wants), str(came[0])
        return calls, told, [f"{name}: {at} {how}: {wrong}" for wrong in wrongs]

    def look_at_all(lane, some):
        return [look(lane, *one) for one in some]

    todo = [(how, at) for how in ("ONE", "FULL") for at in numbers]
    with concurrent.futures.ThreadPoolExecutor(LANES) as pool:
        lanes = [pool.submit(look_at_all, str(lane), todo[lane::LANES]) for lane in range(LANES)]
        for calls, told, wrongs in (one for lane in lanes for one in lane.result()):
            ended[told if calls else "nothing failed"] += 1
            RUNS[told] += 1
            WRONG.extend(wrongs)
    print(f"{name}: {least} allocations, {len(numbers)} of them tried, twice: {dict(ended)}", flush=True)


LANES = 4


def main():
    built = subprocess.run(["cc", "-shared", "-fPIC", "-O2", "-o", LIBRARY, f"{TOP}/bench/failing.c"], check=False)
    if built.returncode:
        sys.exit("failing.py: cc doesn't build bench/failing.c")
    stores()
    COMMANDS[-1] = (*COMMANDS[-1][:2], call(f"{WORK}/stored", ["export"]))
    if WORD.startswith("memory"):
        row_stores()
        for store, words, given in MEMORY:
            if WORD[7:] in f"{store} {words[0] if words else 'serve'}":
                want_each(store, words, given)
                tell_wrongs()
    else:
        for store, words, given in COMMANDS:
            if WORD in f"{store} {words[0]}":
                fail_each(store, words, given)
                tell_wrongs()
        for options in ([], ["--single"]):
            if WORD in "stored serve":
                fail_each_of_service("stored", options)
                tell_wrongs()
    print(f"{sum(RUNS.values())} runs with a call that failed, by status: {dict(RUNS)}")
    tell_wrongs()
    if WRONG:
        sys.exit(f"failing.py: {len(WRONG)} things are wrong; {WORK} is left")
    shutil.rmtree(WORK)


main()
