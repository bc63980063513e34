#!/usr/bin/env python3
"""bench/hostile.py [KAPD]: requests as attackers send them, at `kapd PLACE serve` with 4 seats and with --single.

By the built program KAPD (crates/kapd/out/kapd). For each it prints what is answered, and compares that with what is
wanted; and while each waits for its answer, another client is answered within a second. With --single it also holds
1,024 links, beside which one more is let in as soon as one of them ends, and not before. It listens and asks on
127.0.0.1 alone, and ends the services that it started. It ends with 1 where an answer differs or another client
waits."""
import os, re, shutil, socket, subprocess, sys, tempfile, time

top = os.path.dirname(os.path.dirname(os.path.abspath(__file__)))
kapd = os.path.abspath(sys.argv[1] if len(sys.argv) > 1 else f"{top}/crates/kapd/out/kapd")
work = tempfile.mkdtemp(prefix="kapd-hostile-")
failed = []
PING = b"GET /kapacitor/v1/ping HTTP/1.1\r\n\r\n"
LINE = b"m x=1i 5\n"


def post(*fields, body=LINE, target=b"/write?db=d&rp=r"):
    return b"POST " + target + b" HTTP/1.1\r\n" + b"".join(f + b"\r\n" for f in fields) + b"\r\n" + body


def get(target, *fields):
    return b"GET " + target + b" HTTP/1.1\r\n" + b"".join(f + b"\r\n" for f in fields) + b"\r\n"


LENGTH = b"Content-Length: 9"
LONGEST = b"/kapacitor/v1/alerts/topics/"
# what is sent, its bytes, and the statuses that come; none where the link is closed without an answer
ROWS = [
    ("two lengths that agree", post(LENGTH, LENGTH), [400]),
    ("two lengths that differ", post(LENGTH, b"Content-Length: 8"), [400]),
    ("a length of letters", post(b"Content-Length: nine"), [400]),
    ("a length with a sign", post(b"Content-Length: +9"), [400]),
    ("an empty length", post(b"Content-Length:"), [400]),
    ("a length above 64 bits", post(b"Content-Length: 99999999999999999999999"), [413]),
    ("a length above 8 MiB", post(b"Content-Length: 8388609"), [413]),
    ("a JSON body above 1 MiB", post(b"Content-Length: 1048577", target=b"/kapacitor/v1/tasks"), [413]),
    ("Transfer-Encoding: chunked", post(b"Transfer-Encoding: chunked", body=b"9\r\n" + LINE + b"\r\n0\r\n\r\n"), [400]),
    ("tRANSFER-eNCODING: x, chunked", post(b"tRANSFER-eNCODING: x, chunked", LENGTH), [400]),
    ("Transfer-Encoding: identity", post(b"Transfer-Encoding: identity", LENGTH), [400]),
    ("a length and Transfer-Encoding", post(LENGTH, b"Transfer-Encoding: chunked"), [400]),
    ("Content-Encoding: gzip", post(b"Content-Encoding: gzip", LENGTH), [400]),
    ("Expect: 100-continue", post(b"Expect: 100-continue", LENGTH), [204]),
    ("a bare carriage return in a head", get(b"/kapacitor/v1/ping", b"A: b\rC: d"), [400]),
    ("a bare line feed in a head", get(b"/kapacitor/v1/ping", b"A: b\nC: d"), [204]),
    ("a space before a colon", post(b"Content-Length : 9"), [400]),
    ("a field that goes on in the next line", get(b"/kapacitor/v1/ping", b"A: b", b" c"), [400]),
    ("no target", b"GET HTTP/1.1\r\n\r\n", [400]),
    ("another version", b"GET /kapacitor/v1/ping HTTP/2.0\r\n\r\n", [400]),
    ("HTTP/0.9", b"GET /kapacitor/v1/ping\r\n\r\n", [400]),
    ("64 fields", get(b"/kapacitor/v1/ping", *[b"A: b"] * 64), [204]),
    ("65 fields", get(b"/kapacitor/v1/ping", *[b"A: b"] * 65), [400]),
    ("a head of 16,384 bytes", get(b"/kapacitor/v1/ping", b"A: " + b"b" * (16384 - len(get(b"/kapacitor/v1/ping", b"A: ")))), [204]),
    ("a head of 16,385 bytes", get(b"/kapacitor/v1/ping", b"A: " + b"b" * (16385 - len(get(b"/kapacitor/v1/ping", b"A: ")))), [400]),
    ("a head that doesn't end", b"GET /" + b"a" * 16384, [400]),
    ("a long target", get(LONGEST + b"a" * (16384 - len(get(LONGEST)))), [404]),
    ("NUL in a path", get(b"/kapacitor/v1/tasks/a\0b"), [400]),
    ("%00 in an id", get(b"/kapacitor/v1/tasks/a%00b"), [404]),
    ("%FF in an id", get(b"/kapacitor/v1/tasks/%FF"), [404]),
    (".. as an id", get(b"/kapacitor/v1/tasks/.."), [404]),
    ("../../etc/passwd as an id", get(b"/kapacitor/v1/tasks/..%2F..%2Fetc%2Fpasswd"), [404]),
    ("an id that isn't one", post(b"Content-Length: 39", body=b'{"id":"a/../b","script":"stream|from()"}'[:39], target=b"/kapacitor/v1/tasks"), [400]),
    ("JSON of 100,000 open brackets", post(b"Content-Length: 100000", body=b"[" * 100000, target=b"/kapacitor/v1/tasks"), [400]),
    ("a script of 100,000 open parentheses", post(b"Content-Length: 100029", body=b'{"id":"x","script":"' + b"(" * 100007 + b'"}', target=b"/kapacitor/v1/tasks"), [400]),
    ("a line feed in db", post(LENGTH, target=b"/write?db=a%0Ab"), [400]),
    ("bytes that aren't UTF-8 in db", post(LENGTH, target=b"/write?db=%FF"), [400]),
    ("a body that isn't UTF-8", post(LENGTH, body=b"m\xff x=1i 5"), [400]),
    ("two requests in one piece", PING + PING, [204, 204]),
    ("a second request behind a bad one", post(LENGTH, LENGTH) + PING, [400]),
    ("a request as a body", post(b"Content-Length: %d" % len(PING), body=PING), [400]),
    ("a request behind a body", post(LENGTH) + PING, [204, 204]),
    ("a thousand and five requests at once", PING * 1005, [204] * 1000),
]


class Service:
    """A service on a folder of its own."""

    def __init__(self, name, *options):
        place = f"{work}/{name}"
        os.mkdir(place)
        subprocess.run([kapd, place, "init"], check=True)
        self.process = subprocess.Popen(
            [kapd, place, "serve", "--addr", "127.0.0.1:0", *options], stderr=subprocess.PIPE, text=True
        )
        self.port = int(self.process.stderr.readline().rsplit(":", 1)[1])

    def __enter__(self):
        return self

    def __exit__(self, *_):
        self.process.kill()
        self.process.wait()


def link_to(service, timeout=20):
    return socket.create_connection(("127.0.0.1", service.port), timeout=timeout)


def statuses(reply):
    return [int(n) for n in re.findall(rb"HTTP/1\.1 (\d\d\d) ", reply)]


def read_all(link):
    """What comes until the link ends, or nothing comes for half a second behind a reply."""
    reply = b""
    while True:
        link.settimeout(0.5 if reply else 5)
        try:
            piece = link.recv(65536)
        except TimeoutError:
            return reply, "it stays open"
        except OSError:
            return reply, "it is reset"
        if not piece:
            return reply, "it is closed"
        reply += piece


def other(service):
    """How long another client waits for its ping."""
    began = time.monotonic()
    with link_to(service, 5) as link:
        link.sendall(PING)
        try:
            fine = link.recv(100).startswith(b"HTTP/1.1 204")
        except OSError:
            fine = False
    return time.monotonic() - began if fine else 99.0


def fail(text):
    failed.append(text)
    print("DIFFERS:", text)


def rows(service, name):
    for text, sent, wanted in ROWS:
        with link_to(service) as link:
            try:
                link.sendall(sent)
            except OSError:
                pass
            late = other(service)
            reply, how = read_all(link)
        came = statuses(reply)
        shown = came if len(came) < 4 else f"{len(came)} of {came[0]}"
        body = reply.rsplit(b"\r\n\r\n", 1)[-1][:60].decode(errors="replace")
        print(f"{name}: {text}: {shown} {body} ({how}; another client {late * 1000:.0f} ms)")
        if came != wanted:
            fail(f"{name}: {text}: wanted {wanted[:3]}, came {came[:3]}")
        if late > 1:
            fail(f"{name}: {text}: another client waits {late:.1f} s")


def waiting(service, name):
    """Links that hold back: a body that never comes, a head a byte a second, a reply that isn't read."""
    held = []
    for sent in (b"", b"GET /", post(b"Content-Length: 100000", body=b"m"), PING * 900):
        link = link_to(service)
        link.sendall(sent)
        held.append(link)
    time.sleep(0.2)
    began = time.monotonic()
    late = max(other(service) for _ in range(3))
    print(f"{name}: beside a silent link, half a head, a body that never comes and replies that nobody reads: another client {late * 1000:.0f} ms")
    if late > 1:
        fail(f"{name}: another client waits {late:.1f} s beside links that hold back")
    ends = []
    for link in held[:3]:
        link.settimeout(20)
        try:
            ends.append("closed" if link.recv(100) == b"" else "answered")
        except OSError:
            ends.append("open")
    print(f"{name}: after {time.monotonic() - began:.1f} s the first three are {ends} (--idle 3)")
    if ends != ["closed"] * 3:
        fail(f"{name}: links that hold back are {ends}")
    for link in held:
        link.close()


def full(service):
    """1,024 links that send nothing: one more is let in where one of them ends, and answered then."""
    held = [link_to(service) for _ in range(1_024)]
    time.sleep(0.5)
    with link_to(service, 2) as last:
        last.sendall(PING)
        try:
            early = last.recv(100)
        except TimeoutError:
            early = b""
        held.pop().close()
        began = time.monotonic()
        last.settimeout(10)
        try:
            reply = last.recv(100)
        except OSError:
            reply = b""
        late = time.monotonic() - began
    print(f"single: beside 1,024 links one more is answered {statuses(early)}; {late * 1000:.0f} ms behind the end of one {statuses(reply)}")
    if early or statuses(reply) != [204]:
        fail("a link more than 1,024 isn't let in where one ends, and only then")
    for link in held:
        link.close()


try:
    for name, options in [("4 seats", ["--seats", "4", "--idle", "3"])] + [("single", ["--single", "--idle", "3"])]:
        with Service(name.replace(" ", "-"), *options) as service:
            rows(service, name)
            if "--single" in options:
                waiting(service, name)
    with Service("more", "--seats", "8", "--idle", "3") as service:
        waiting(service, "8 seats")
    with Service("full", "--single", "--idle", "60") as service:
        full(service)
finally:
    shutil.rmtree(work, ignore_errors=True)
print(f"{len(failed)} differences")
sys.exit(1 if failed else 0)
