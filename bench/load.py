#!/usr/bin/env python3
"""bench/load.py [OPTION].. [KAPD]: what `kapd PLACE serve` bears.

By the built program KAPD (crates/kapd/out/kapd), with 4 seats and with --single: pings a second over 64 links; writes of
100 points a second, without a change of a level and with some, beside the syncs a second that the same disk takes from
a loop, in the same run; topics read while writes wait for the disk; the resident memory over 1,000,000 requests
(--requests N); a thousand links that send nothing while another client is answered; 20,000 connections (--broken N)
whose requests are cut, doubled, flipped or random. Each figure is of 8 seconds (--seconds S). --parts names some of
pings, writes, topics, memory, still and broken, with commas between, and --ways `four` or `single`.

It needs wrk (Debian: wrk), listens and asks on 127.0.0.1 alone, and ends the services that it started. It ends with 1
where a service doesn't answer any more, or its memory grew by more than 8 MiB."""
import argparse, http.client, os, random, re, shutil, socket, subprocess, sys, tempfile, time

top = os.path.dirname(os.path.dirname(os.path.abspath(__file__)))
ask = argparse.ArgumentParser()
ask.add_argument("--seconds", type=int, default=8)
ask.add_argument("--requests", type=int, default=1_000_000)
ask.add_argument("--broken", type=int, default=20_000)
ask.add_argument("--parts", default="pings,writes,topics,memory,still,broken")
ask.add_argument("--ways", default="four,single")
ask.add_argument("kapd", nargs="?", default=f"{top}/crates/kapd/out/kapd")
ask = ask.parse_args()
kapd = os.path.abspath(ask.kapd)
if not shutil.which("wrk"):
    sys.exit("load.py: wrk isn't there: apt-get install wrk")
work = tempfile.mkdtemp(prefix="kapd-load-")
failed = []
GROWTH = 8 << 20


class Service:
    """A service on a folder of its own, whose store has a task that alerts."""

    def __init__(self, name, *options):
        self.place = f"{work}/{name}"
        os.mkdir(self.place)
        subprocess.run([kapd, self.place, "init"], check=True)
        script = b"stream|from().measurement('cpu').groupBy('host')|alert().crit(lambda: \"idle\" < 10)"
        subprocess.run([kapd, self.place, "define", "t"], input=script, check=True)
        subprocess.run([kapd, self.place, "enable", "t"], check=True)
        self.process = subprocess.Popen(
            [kapd, self.place, "serve", "--addr", "127.0.0.1:0", *options], stderr=subprocess.PIPE, text=True
        )
        line = self.process.stderr.readline()
        self.port = int(line.rsplit(":", 1)[1])

    def __enter__(self):
        return self

    def __exit__(self, *_):
        self.process.kill()
        self.process.wait()

    def resident(self):
        with open(f"/proc/{self.process.pid}/status") as status:
            return int(re.search(r"VmRSS:\s+(\d+) kB", status.read())[1]) << 10

    def ping(self, timeout=10):
        began = time.monotonic()
        link = http.client.HTTPConnection("127.0.0.1", self.port, timeout=timeout)
        try:
            link.request("GET", "/kapacitor/v1/ping")
            return link.getresponse().status, time.monotonic() - began
        except OSError as fault:
            return str(fault), time.monotonic() - began
        finally:
            link.close()


def wrk(service, path, links, seconds, script=None):
    words = ["wrk", f"-t{min(links, 2)}", f"-c{links}", f"-d{seconds}s", "--latency"]
    if script:
        words += ["-s", script]
    return subprocess.Popen(
        [*words, f"http://127.0.0.1:{service.port}{path}"], stdout=subprocess.PIPE, stderr=subprocess.STDOUT, text=True
    )


def told(run):
    text = run.communicate()[0]
    rate = re.search(r"Requests/sec:\s+([\d.]+)", text)
    late = dict(re.findall(r"^\s+(50|99)%\s+(\S+)", text, re.M))
    count = re.search(r"(\d+) requests in", text)
    bad = re.search(r"Non-2xx or 3xx responses: (\d+)", text)
    errors = re.search(r"Socket errors: (.*)", text)
    said = [f"p50 {late.get('50')}", f"p99 {late.get('99')}"]
    if bad:
        said.append(f"{bad[1]} not 2xx")
    if errors:
        said.append(errors[1])
    return float(rate[1]) if rate else 0.0, int(count[1]) if count else 0, ", ".join(said)


def check(holds, text):
    if not holds:
        failed.append(text)
        print("FAILED:", text)


def ways(all_):
    """Those of these ways that were asked for."""
    return [way for way in all_ if ("single" if way[0] == "single" else "four") in ask.ways.split(",")]


def syncs(seconds):
    """How often a second the disk takes a write of 4,096 bytes and its sync."""
    with open(f"{work}/synced", "wb", buffering=0) as file:
        count, began = 0, time.monotonic()
        while time.monotonic() - began < seconds:
            os.pwrite(file.fileno(), bytes(4096), 4096 * count)
            os.fdatasync(file.fileno())
            count += 1
        return count / (time.monotonic() - began)


def pings():
    for name, options in ways([("four", ["--seats", "4"]), ("single", ["--single"])]):
        with Service(f"ping-{name}", *options) as service:
            rate, _, said = told(wrk(service, "/kapacitor/v1/ping", 64, ask.seconds))
            print(f"pings over 64 links, {' '.join(options)}: {rate:,.0f} a second ({said})", flush=True)


def writes_script(quiet):
    """100 points of eight hosts; some of them change the level of their host, or none does where it is quiet."""
    least = 10 if quiet else 0
    lines = "\\n".join(f"cpu,host=h{n % 8} idle={max(37 * n % 101, least)}i {n}" for n in range(1, 101))
    with open(f"{work}/write.lua", "w") as file:
        file.write(f'wrk.method = "POST"\nwrk.body = "{lines}\\n"\nwrk.headers["Content-Type"] = ""\n')
    return f"{work}/write.lua"


def writes():
    path = "/write?db=d&rp=autogen&precision=ns"
    for name, options in ways([("four", ["--seats", "4"]), ("single", ["--single"])]):
        for kind, quiet in [("quiet", True), ("loud", False)]:
            with Service(f"write-{name}-{kind}", *options) as service:
                before = syncs(2)
                rate, _, said = told(wrk(service, path, 4, ask.seconds, writes_script(quiet)))
                after = syncs(2)
                print(f"syncs of 4,096 bytes: {before:,.0f} a second before, {after:,.0f} behind")
                print(
                    f"writes of 100 points {'without' if quiet else 'with'} changes of levels, {' '.join(options)}, 4 links: "
                    f"{rate:,.0f} a second, {100 * rate:,.0f} points, {2 * rate / (before + after):.2f} of the syncs ({said})",
                    flush=True,
                )


def topics():
    path, script = "/write?db=d&rp=autogen&precision=ns", writes_script(False)
    for name, options in ways([("eight", ["--seats", "8"]), ("single", ["--single"])]):
        with Service(f"topics-{name}", *options) as service:
            told(wrk(service, path, 1, 1, script))
            alone, _, said = told(wrk(service, "/kapacitor/v1/alerts/topics", 2, ask.seconds))
            print(f"topics over 2 links, {' '.join(options)}, alone: {alone:,.0f} a second ({said})")
            writing = wrk(service, path, 4, ask.seconds, script)
            rate, _, said = told(wrk(service, "/kapacitor/v1/alerts/topics", 2, ask.seconds))
            wrote, _, _ = told(writing)
            print(f"topics over 2 links beside {wrote:,.0f} writes a second: {rate:,.0f} a second ({said})", flush=True)


def memory():
    for name, options in ways([("four", ["--seats", "4"]), ("single", ["--single"])]):
        with Service(f"memory-{name}", *options) as service:
            told(wrk(service, "/kapacitor/v1/ping", 64, 1))
            before, done = service.resident(), 0
            while done < ask.requests:
                _, count, _ = told(wrk(service, "/kapacitor/v1/ping", 64, ask.seconds))
                if not count:
                    break
                done += count
            after = service.resident()
            print(f"resident, {' '.join(options)}: {before:,} bytes, behind {done:,} requests {after:,}", flush=True)
            check(after - before < GROWTH, f"memory grew by {after - before:,} bytes over {done:,} requests")


def still():
    for name, options, links in ways([("single", ["--single"], 1_000), ("four", ["--seats", "4", "--idle", "2"], 16)]):
        with Service(f"still-{name}", *options) as service:
            held = [socket.create_connection(("127.0.0.1", service.port)) for _ in range(links)]
            time.sleep(0.5)
            late = [service.ping() for _ in range(20)]
            print(
                f"{links:,} links that send nothing, {' '.join(options)}: pings {sorted({s for s, _ in late})}, "
                f"the longest after {max(t for _, t in late):.3f} s",
                flush=True,
            )
            check(all(s == 204 for s, _ in late), f"a ping beside {links} idle links wasn't answered")
            for link in held:
                link.close()


WHOLE = [
    b"GET /kapacitor/v1/ping HTTP/1.1\r\nHost: a\r\n\r\n",
    b"POST /write?db=d&rp=autogen HTTP/1.1\r\nContent-Length: 9\r\n\r\nm x=1i 5\n",
    b"POST /kapacitor/v1/tasks HTTP/1.1\r\nContent-Length: 35\r\n\r\n" + b'{"id":"x","script":"stream|from()"}',
    b"PATCH /kapacitor/v1/tasks/t HTTP/1.1\r\nContent-Length: 20\r\n\r\n" + b'{"status":"enabled"}',
    b"GET /kapacitor/v1/alerts/topics/main HTTP/1.1\r\nConnection: close\r\n\r\n",
    b"DELETE /kapacitor/v1/tasks/x HTTP/1.1\r\n\r\n",
]


def broken_bytes(chance):
    bytes_ = bytearray(chance.choice(WHOLE) * chance.choice([1, 1, 2, 3]))
    how = chance.randrange(5)
    if how == 0:
        return bytes(bytes_[: chance.randrange(len(bytes_))])
    if how == 1:
        at = chance.randrange(len(bytes_))
        until = chance.randrange(at, len(bytes_)) + 1
        return bytes(bytes_[:until] + bytes_[at:])
    if how == 2:
        for _ in range(chance.randrange(1, 6)):
            bytes_[chance.randrange(len(bytes_))] ^= 1 << chance.randrange(8)
        return bytes(bytes_)
    if how == 3:
        return chance.randbytes(chance.randrange(200))
    return bytes(bytes_)


def broken():
    chance = random.Random(1)
    for name, options in ways([("single", ["--single"]), ("four", ["--seats", "4", "--idle", "1"])]):
        with Service(f"broken-{name}", *options) as service:
            answered = closed = unheard = 0
            seen = []
            for number in range(ask.broken):
                if number % max(ask.broken // 10, 1) == 0 and 0 < number:
                    seen.append(service.resident())
                try:
                    link = socket.create_connection(("127.0.0.1", service.port), timeout=10)
                except OSError:
                    unheard += 1
                    continue
                with link:
                    try:
                        link.sendall(broken_bytes(chance))
                        link.shutdown(socket.SHUT_WR)
                        if link.recv(65536):
                            answered += 1
                        else:
                            closed += 1
                    except OSError:
                        closed += 1
            after = service.resident()
            before = seen[0] if seen else after
            status, late = service.ping()
            print(
                f"{ask.broken:,} broken connections, {' '.join(options)}: {answered:,} answered, {closed:,} closed, {unheard:,} "
                f"not let in; resident {before:,} bytes behind a tenth of them, {max(seen + [after]):,} at most from then on, "
                f"{after:,} at the end; then a ping: {status} after {late:.3f} s",
                flush=True,
            )
            check(status == 204, "no ping is answered behind broken requests")
            check(unheard == 0, f"{unheard} connections weren't let in")
            check(after - before < GROWTH, f"memory grew by {after - before:,} bytes over broken requests")


try:
    for part in (pings, writes, topics, memory, still, broken):
        if part.__name__ in ask.parts.split(","):
            part()
finally:
    shutil.rmtree(work, ignore_errors=True)
sys.exit(1 if failed else 0)
