"""The real clients that tools/check-live has talk to the program: what each runs, and what is wrong with what came of it."""
import collections
import os
import random
import re
import shlex
import sys

import page

FILES = {
    "/page": random.Random(22).randbytes(20000), "/large": random.Random(23).randbytes(200000), "/one": b"1", "/empty": b"",
    **page.files(),
}
CLUSTER = "http://10.0.0.1"
PAGE = CLUSTER + "/page"
# the first lines of these runs, and what stands in the file /a of those that docs/LIVE.md names
HEAD = "lard 1\nnodes 3\n" + "".join("file %s %s\n" % (path, body.hex() or "-") for path, body in FILES.items()) + "go\n"
GREETING = b"Hello from a cluster whose every step is proved.\n"
SCREEN = (24, 80)       # rows and columns, in which a summary has to have its place

# needs: the program that has to be here. options: of tools/live. command: its words, or what makes them of the run's folder.
# judge: what is wrong with a Done. served: how many requests are served at least. rests: whether no timer is left armed.
# wish: what one of a few such runs has to have too, where it is a matter of the moment whether one has it: a judge, or None.
Run = collections.namedtuple("Run", "name needs options command judge served rests wish")
# what a run printed, what tools/live said, and the folder in which it is kept
Done = collections.namedtuple("Done", "output said folder")


def run(name, command, judge, served=1, needs="curl", options=(), rests=True, wish=None):
    return Run(name, needs, list(options), command, judge, served, rests, wish)


# ---- what came

def differs(got, wanted):
    return "" if got == wanted else "%r for %r" % (got, wanted)


def contents(folder, name):
    try:
        with open(os.path.join(folder, name), "rb") as file:
            return file.read()
    except OSError as error:
        return error.strerror.encode()


def records(folder):
    """The records of a run's report, as words."""
    return [line.split(" ") for line in contents(folder, "live.report").decode("latin-1").splitlines()]


def body_fault(got, wanted):
    return "" if got == wanted else "%d bytes for %d, or others: %r" % (len(got), len(wanted), got[:60])


def is_file(path, head=b"", times=1):
    """Whether what came is this head and the file, so many times."""
    return lambda done: body_fault(done.output, (head + FILES[path]) * times)


def is_text(wanted):
    return lambda done: differs(done.output, wanted)


def is_short(done):
    """Whether what came is a beginning of the large file's response, and not all of it."""
    whole = b"HTTP/1.1 200 OK\r\nContent-Length: 200000\r\n\r\n" + FILES["/large"]
    return "" if 0 < len(done.output) <= 1000 and whole.startswith(done.output) else "%d bytes, %r" % (len(done.output), done.output[:60])


def tells(*wanted):
    """Whether each of these stands in what came."""
    def judge(done):
        text = done.output.decode("latin-1")
        missing = [one for one in wanted if not re.search(one, text)]
        return "no %r in %r" % (missing[0], text[-600:]) if missing else ""
    return judge


def both(*judges):
    return lambda done: next((fault for fault in (judge(done) for judge in judges) if fault), "")


def is_a_screen(done):
    rows = sum(1 + (len(line) - 1) // SCREEN[1] for line in done.said.splitlines() if line.startswith("live: "))
    return "" if rows <= SCREEN[0] else "the summary has %d rows of %d columns" % (rows, SCREEN[1])


def ends(wanted):
    """Whether the clients of the schedule stood for these ends, in the order of their numbers."""
    def judge(done):
        got = [line.split()[1].decode() for line in contents(done.folder, "live.clients").splitlines()]
        return differs(got, wanted)
    return judge


def goes_elsewhere(done):
    """Whether node 1 is closed, and no connection goes there behind that."""
    told, closed = records(done.folder), ["closed", "n1"]
    behind = told[told.index(closed):] if closed in told else None
    if behind is None:
        return "node 1 is not closed"
    first = [words for words in behind if words[0] == "assigned" and words[3] == "first" and words[5] == "1"]
    return "to node 1, which is closed: " + " ".join(first[0]) if first else ""


def has_windows_closed(done):
    """Whether some client told a window of 0 behind its SYN, in bytes 14 and 15 of a segment."""
    told = [words[4] for words in records(done.folder) if words[0] == "sent" and words[2][0] == "c"]
    return "" if any(digits[28:32] == "0000" and digits[26:28] == "10" for digits in told) else "no window was closed"


def is_over_three_nodes(done):
    """Whether each node served. Chromium opens a third connection where none is free: by a slow disk, if no packet is lost then."""
    places = {words[1] for words in records(done.folder) if words[0] == "served" and words[4] == "200"}
    return "" if places >= {"n1", "n2", "n3"} else "served by " + " ".join(sorted(places))


def shows_the_page(done):
    return page.fault_of(contents(done.folder, "page.png"))


# ---- clients with sockets of their own

SOCKET = """
import errno, random, socket, struct, sys, threading, time
def connected(source=("", 0), window=0):
    while True:
        client = socket.socket()
        client.setsockopt(socket.SOL_SOCKET, socket.SO_REUSEADDR, 1)
        if window:
            client.setsockopt(socket.SOL_SOCKET, socket.SO_RCVBUF, window)
        try:
            client.bind(source)
            client.connect(("10.0.0.1", 80))
        except OSError as error:
            if error.errno not in (errno.EADDRINUSE, errno.EADDRNOTAVAIL):
                raise
            time.sleep(0.02)    # the connection before is not over yet
        else:
            client.setsockopt(socket.IPPROTO_TCP, socket.TCP_NODELAY, 1)
            return client
def rest(client, size=65536, pause=0):
    pieces = []
    for piece in iter(lambda: client.recv(size), b""):
        pieces.append(piece)
        time.sleep(pause)
    return b"".join(pieces)
def head(path):
    return b"GET %s HTTP/1.1\\r\\nHost: lard\\r\\nConnection: close\\r\\n\\r\\n" % path
def all_of(work, count):
    threads = [threading.Thread(target=work) for _ in range(count)]
    [thread.start() for thread in threads]
    return threads
"""
BYTE_BY_BYTE = SOCKET + """
client = connected(("10.1.0.1", 40000))
for byte in (b"G", b"E", b"T"):
    client.sendall(byte)
    time.sleep(0.5)
client.sendall(head(b"/page")[3:])
sys.stdout.buffer.write(rest(client))
"""
CLOSES_EARLY = SOCKET + """
client = connected(("10.1.0.1", 40000))
client.sendall(b"GET /large HTTP/1.1\\r\\nHost: lard\\r\\n\\r\\n")
sys.stdout.buffer.write(client.recv(1000))
client.close()
"""
# ten heads that come byte by byte, and end only once a plain request was answered
SLOW_WRITERS = SOCKET + """
ends, may_end = [], threading.Event()
def work():
    client = connected()
    for byte in head(b"/one")[:-1]:
        client.send(bytes([byte]))
        time.sleep(0.02)
    may_end.wait(30)
    client.send(b"\\n")
    ends.append(rest(client))
threads = all_of(work, 10)
time.sleep(0.5)
client = connected()
client.sendall(head(b"/page"))
page, early = rest(client), len(ends)
may_end.set()
[thread.join() for thread in threads]
print(early, len(ends), len(page), len(set(ends)), ends[0][-1:])
"""
# five readers whose buffers are as small as the kernel lets them be
SLOW_READERS = SOCKET + """
pages = []
def work():
    client = connected(window=1)
    client.sendall(head(b"/page"))
    time.sleep(0.3)
    pages.append(rest(client, 500, 0.01))
[thread.join() for thread in all_of(work, 5)]
sys.stdout.buffer.write(b"".join(pages))
"""
# one end again and again, each time behind a connection that is over; where it is over while the front end still has it too
ONE_END = SOCKET + """
def ask(words):
    client = connected(("10.1.0.3", 40000))
    client.sendall(words)
    print(rest(client).split(b"\\r\\n")[0].decode())
    client.close()
ask(head(b"/page"))
ask(b"POST / HTTP/1.1\\r\\nHost: lard\\r\\nContent-Length: 1\\r\\n\\r\\n1")
ask(b"nonsense\\r\\n\\r\\n")
client = connected(("10.1.0.3", 40000))
client.setsockopt(socket.SOL_SOCKET, socket.SO_LINGER, struct.pack("ii", 1, 0))
client.close()
ask(head(b"/page"))
"""
# SYNs as fast as they go, for a second, from 3,000 ends that answer nothing; then a plain request
FLOOD = SOCKET + """
def sum_of(data):
    return 65535 - sum(struct.unpack("!%dH" % (len(data) // 2), data)) % 65535
def packet(address, port):
    ends = socket.inet_aton(address) + socket.inet_aton("10.0.0.1")
    syn = struct.pack("!HHIIBBHHH", port, 80, 1000, 0, 0x50, 2, 1000, 0, 0)
    syn = syn[:16] + struct.pack("!H", sum_of(ends + b"\\0\\6\\0\\x14" + syn)) + syn[18:]
    return struct.pack("!BBHHHBBH", 0x45, 0, 40, 0, 0x4000, 64, 6, 0) + ends + syn
raw = socket.socket(socket.AF_INET, socket.SOCK_RAW, socket.IPPROTO_RAW)
packets = [packet("10.2.%d.%d" % (i // 200, 1 + i % 200), 1024 + i) for i in range(3000)]
sent, until = 0, time.monotonic() + 1
while time.monotonic() < until:
    raw.sendto(packets[sent % 3000], ("10.0.0.1", 0))
    sent += 1
client = connected()
client.sendall(head(b"/page"))
sys.stdout.buffer.write(rest(client))
"""


def python(text):
    return [sys.executable, "-c", text]


def has_slow_heads(done):
    """No slow head was whole when the page came, and all were answered with the file /one, in the same bytes."""
    length = len(b"HTTP/1.1 200 OK\r\nContent-Length: 20000\r\nConnection: close\r\n\r\n") + 20000
    return differs(done.output.decode(), "0 10 %d 1 b'1'\n" % length)


# ---- programs

def curl(client, *words):
    return ["curl", "-sS", "--interface", "10.1.0.%d" % client, "--local-port", "40000", *words]


def at_once(commands):
    """A shell that starts these side by side and waits for all."""
    return ["sh", "-c", " ".join(shlex.join(words) + " &" for words in commands) + " wait"]


def eight(of):
    """Eight clients at once, with four requests each on one connection, each into a file of its own."""
    def command(folder):
        kept = lambda c, r: os.path.join(folder, "%d-%d" % (c, r))
        return at_once(of(c, *(word for r in range(1, 5) for word in (PAGE, "-o", kept(c, r)))) for c in range(1, 9))
    return command


def got_eight(done):
    for c in range(1, 9):
        for r in range(1, 5):
            fault = body_fault(contents(done.folder, "%d-%d" % (c, r)), FILES["/page"])
            if fault:
                return "client %d, request %d: %s" % (c, r, fault)
    return ""


def siege(folder):
    # it writes its settings to where it is at home
    return ["env", "HOME=" + folder, "siege", "-q", "-j", "-b", "-c", "4", "-r", "5", PAGE]


def flood(_):
    """A second of SYNs from one end as fast as they go; then a plain request."""
    hping = "timeout 1 hping3 -q --flood -S -a 10.1.0.99 -s 5 -k -p 80 -I lard 10.0.0.1 >/dev/null 2>&1; "
    return ["sh", "-c", hping + shlex.join(["curl", "-sS", PAGE])]


def browser(folder):
    return ["chromium", "--headless", "--no-sandbox", "--disable-gpu", "--hide-scrollbars", "--force-device-scale-factor=1",
            "--user-data-dir=" + os.path.join(folder, "profile"), "--window-size=%d,%d" % page.SIZE,
            "--screenshot=" + os.path.join(folder, "page.png"), CLUSTER + "/"]


def runs():
    """All of them."""
    response = b"HTTP/1.1 200 OK\r\nContent-Length: 20000\r\n"
    closing = response + b"Connection: close\r\n\r\n"
    yield run("chromium, three images over three nodes, 5 % lost", browser, shows_the_page, 4,
              "chromium", ["--loss", "5", "--repeat", "5", "--seed", "3", "--disk", "0.5"], wish=is_over_three_nodes)
    yield run("one request", curl(1, PAGE), is_file("/page"))
    yield run("a large file", curl(40, CLUSTER + "/large"), is_file("/large"))
    yield run("curl that reads slowly", curl(1, "--limit-rate", "100k", CLUSTER + "/large"), is_file("/large"))
    yield run("four files on one connection", curl(2, PAGE, *(CLUSTER + path for path in ("/one", "/empty", "/page"))),
              lambda done: body_fault(done.output, FILES["/page"] + b"1" + FILES["/page"]), 4)
    yield run("curl after curl, from any port", ["sh", "-c", "curl -sS %s; curl -sS %s" % (PAGE, PAGE)], is_file("/page", times=2), 2)
    yield run("eight at once, four requests each", eight(curl), got_eight, 32)
    yield run("eight at once, from any port", eight(lambda _, *words: ["curl", "-sS", *words]), got_eight, 32)
    yield run("HEAD", curl(1, "-I", PAGE), is_text(response + b"\r\n"))
    yield run("no such file", curl(1, "-w", "%{http_code}", CLUSTER + "/none"), is_text(b"404"))
    yield run("HTTP/1.0", curl(1, "-0", "-i", PAGE), is_file("/page", closing))
    yield run("Connection: close", curl(1, "-i", "-H", "Connection: close", PAGE), is_file("/page", closing))
    for seed in ("1", "2", "3"):
        yield run("loss with seed " + seed, eight(curl), got_eight, 32, options=["--seed", seed, "--loss", "2", "--repeat", "2"])
    yield run("a node that is closed while eight ask", eight(curl), both(got_eight, goes_elsewhere), 32, options=["--drain", "1:0.05"])
    yield run("a request byte by byte", python(BYTE_BY_BYTE), is_file("/page", closing), needs=None)
    yield run("a client that closes early", python(CLOSES_EARLY), is_short, needs=None)
    yield run("ten that write their heads slowly", python(SLOW_WRITERS), has_slow_heads, 11, None)
    yield run("five that read slowly", python(SLOW_READERS), both(is_file("/page", closing, 5), has_windows_closed), 5, None)
    statuses = ["HTTP/1.1 200 OK", "HTTP/1.1 413 Content Too Large", "HTTP/1.1 400 Bad Request", "HTTP/1.1 200 OK"]
    yield run("one end, five connections", python(ONE_END), both(
        is_text("".join(line + "\n" for line in statuses).encode()), ends(["10.1.0.3:40000"] * 5)), 4, None)
    yield run("a flood from 3,000 ends", python(FLOOD), is_file("/page", closing), 1, None, rests=False)
    yield run("a flood by hping3", flood, is_file("/page"), 1, "hping3", rests=False)
    yield run("wget, two files", ["wget", "-q", "-O", "-", PAGE, CLUSTER + "/one"],
              lambda done: body_fault(done.output, FILES["/page"] + b"1"), 2, "wget")
    yield run("ab, 200 requests, eight at once", ["ab", "-q", "-n", "200", "-c", "8", PAGE], both(tells(
        r"Complete requests: +200\n", r"Failed requests: +0\n", r"HTML transferred: +4000000 bytes"), is_a_screen), 200, "ab")
    yield run("wrk, eight at once", ["wrk", "-t2", "-c8", "-d2s", PAGE], both(
        tells(r"[1-9][0-9]* requests in"), lambda done: "errors" if b"errors" in done.output else ""), 8, "wrk")
    yield run("siege, four at once", siege, tells(r'"transactions":\s+20,', r'"failed_transactions":\s+0,'), 20, "siege")
