"""What tools/check-lab tries the lab's tools with: lines, logs, traces and words, and what each is to give, worked out apart."""

import access_log as logs
from lab_trace import POLICIES

# ---- lines of access logs

START = b'127.0.0.1 - frank [10/Oct/2000:13:55:36 -0700] '
TIME = 971211336000  # GNU date: date -d '10 Oct 2000 13:55:36 -0700' +%s


def plain(request, status="200", size="2326", rest=""):
    return START + f'"{request}" {status} {size}{rest}'.encode("latin-1")


def timed(time):
    return f'h - - [{time}] "GET /a HTTP/1.1" 200 1'.encode()


LONG = "/" + 1023 * "a"
LINES = [  # a line, and its time, path and size, or the cause for which it is left out
    (plain("GET /apache_pb.gif HTTP/1.0"), (TIME, "/apache_pb.gif", 2326)),
    (plain("GET /apache_pb.gif HTTP/1.0", rest=' "http://www.example.com/start.html" "Mozilla/4.08 [en] (Win98; I ;Nav)"'),
     (TIME, "/apache_pb.gif", 2326)),
    (START.replace(b"frank", b"Jane [x] Doe") + b'"GET / HTTP/1.0" 200 7', (TIME, "/", 7)),
    (START.replace(b"127.0.0.1", b"2001:db8::1") + b'"GET / HTTP/1.0" 200 7', (TIME, "/", 7)),
    (plain("GET /a?b=/c#d HTTP/1.1"), (TIME, "/a", 2326)),
    (plain("GET /a#b?c HTTP/1.1"), (TIME, "/a", 2326)),
    (plain("GET http://example.com:8080/a/b?c HTTP/1.1"), (TIME, "/a/b", 2326)),
    (plain("GET http://example.com HTTP/1.1"), (TIME, "/", 2326)),
    (plain("GET http://example.com?to=/x HTTP/1.1"), (TIME, "/", 2326)),
    (plain("GET //a//b HTTP/1.1"), (TIME, "//a//b", 2326)),
    (plain(r'GET /say\"hi\" HTTP/1.1', rest=r' "-" "an \"agent\" \\"'), (TIME, '/say"hi"', 2326)),
    (plain(r"GET /back\\slash HTTP/1.1"), (TIME, "/back\\slash", 2326)),
    (plain(r"GET /\xe9 HTTP/1.1"), (TIME, r"/\xe9", 2326)),
    (plain("GET /old"), (TIME, "/old", 2326)),
    (plain(f"GET {LONG} HTTP/1.1"), (TIME, LONG, 2326)),
    (plain("GET /a HTTP/1.1", size="-"), (TIME, "/a", 0)),
    (plain("GET /a HTTP/1.1", size="0"), (TIME, "/a", 0)),
    (plain("HEAD /a HTTP/1.1", size="-"), (TIME, "/a", None)),
    (plain("GET /a HTTP/1.1", "206", "10"), (TIME, "/a", None)),
    (plain("GET /a HTTP/1.1", "304", "-"), (TIME, "/a", None)),
    (timed("01/Jan/1970:00:00:00 +0000"), (0, "/a", 1)),
    (timed("01/Jan/1970:05:30:00 +0530"), (0, "/a", 1)),
    (timed("31/Dec/1969:20:30:00 -0330"), (0, "/a", 1)),
    (timed("29/Feb/2000:00:00:00 +0000"), (951782400000, "/a", 1)),
    (timed("28/Feb/2000:23:59:60 +0000"), (951782400000, "/a", 1)),
    (timed("01/Jan/1970:00:00:01.25 +0000"), (1250, "/a", 1)),
    (timed("29/Feb/1900:00:00:00 +0000"), logs.NO_TIME),
    (timed("01/Jab/2000:00:00:00 +0000"), logs.NO_TIME),
    (timed("01/Jan/2000:24:00:00 +0000"), logs.NO_TIME),
    (timed("01/Jan/2000:00:60:00 +0000"), logs.NO_TIME),
    (timed("01/Jan/2000:00:00:00 +0075"), logs.NO_TIME),
    (timed("2000-01-01T00:00:00Z"), logs.NO_LINE),
    (plain("POST /a HTTP/1.1"), logs.NO_METHOD),
    (plain("get /a HTTP/1.1"), logs.NO_METHOD),
    (plain("OPTIONS * HTTP/1.1"), logs.NO_METHOD),
    (plain("GET /a HTTP/1.1", "404", "10"), logs.NO_STATUS),
    (plain("GET /a HTTP/1.1", "500", "-"), logs.NO_STATUS),
    (plain("-", "408", "-"), logs.NO_REQUEST),
    (plain("", "400", "0"), logs.NO_REQUEST),
    (plain(r"\x16\x03\x01\x02", "400", "0"), logs.NO_REQUEST),
    (plain("GET /a b HTTP/1.1", "200", "0"), logs.NO_REQUEST),
    (plain("GET  HTTP/1.1", "400", "0"), logs.NO_REQUEST),
    (plain("GET a HTTP/1.1"), logs.NO_PATH),
    (plain(f"GET {LONG}a HTTP/1.1"), logs.NO_PATH),
    (plain("GET /\xe9 HTTP/1.1"), logs.NO_PATH),
    (plain("GET /a HTTP/1.1").replace(b'HTTP/1.1"', b'HTTP/1.1\\"'), logs.NO_LINE),
    (plain("GET /a HTTP/1.1", "20"), logs.NO_LINE),
    (plain("GET /a HTTP/1.1", size="-5"), logs.NO_LINE),
    (plain("GET /a HTTP/1.1")[:60], logs.NO_LINE),
    (b"", logs.NO_LINE),
    (b"\x00\xff junk", logs.NO_LINE),
    (plain("GET /" + 65536 * "a"), logs.TOO_LONG),
]
DURATIONS = [  # by the option, the end of a line, and milliseconds or the cause
    ("D", " 1500", 2), ("D", ' "-" "agent 7" 2000000', 2000), ("D", " 0", 0), ("D", " 1", 1),
    ("T", " 3", 3000), ("T", ' "-" "agent" 0.005', 5), ("T", " 0.0001", 1),
    ("D", "", logs.NO_DURATION), ("T", ' "-" "agent 7"', logs.NO_DURATION), ("T", " -", logs.NO_DURATION), ("T", " -1", logs.NO_DURATION),
]

# ---- whole logs, and what tools/trace makes of them

LOG = """\
a - - [10/Oct/2000:13:55:38 -0700] "GET /late HTTP/1.1" 200 300 "-" "agent" 1500000
b - - [10/Oct/2000:20:55:36 +0000] "GET /a?x HTTP/1.1" 200 100 "-" "agent" 400000
c - - [10/Oct/2000:20:55:36 +0000] "HEAD /a HTTP/1.1" 200 - "-" "agent" 250000
not a line
d - - [10/Oct/2000:20:55:37 +0000] "GET /never HTTP/1.1" 304 - "-" "agent" 1000
e - - [10/Oct/2000:20:55:37 +0000] "POST /a HTTP/1.1" 200 5 "-" "agent" 1000
f - - [10/Oct/2000:20:55:38 +0000] "GET /a HTTP/1.1" 200 120 "-" "agent" 1000
"""
# 4 requests: /a and /a in one second, then /late and /a two seconds later, each pair evenly in its second
FILES = "file /a 120\nfile /late 300\n"
HEAD = "lab 1\ncache 21\n" + FILES + "go\n"
ALL = HEAD + "req /a\nclock 500\nreq /a\nclock 1500\nreq /late\nclock 500\nreq /a\n"
TOLD = """\
trace: 7 lines, 4 requests of them; left out 3
trace: left out 1: not in the Common or the Combined Log Format; the first is line 4 of LOG
trace: left out 1: another method than GET and HEAD; the first is line 6 of LOG
trace: left out 1: of a path that no GET got with 200, so its size is not known (--unknown SIZE gives one)
trace: 4 requests of 2 files with 420 bytes, a cache of 21 bytes at each node
"""
WHOLE = [  # options, and the trace
    ("", ALL),
    ("--window 1", HEAD + "req /a\nclock 500\ndone 1\nreq /a\nclock 1500\ndone 2\nreq /late\nclock 500\ndone 3\nreq /a\n"),
    ("--window 2", HEAD + "req /a\nclock 500\nreq /a\nclock 1500\ndone 1\nreq /late\nclock 500\ndone 2\nreq /a\n"),
    # 0 to 400, 500 to 750, 2000 to 3500, 2500 to 2501
    ("--durations D", HEAD + "req /a\nclock 400\ndone 1\nclock 100\nreq /a\nclock 250\ndone 2\nclock 1250\nreq /late\n"
     "clock 500\nreq /a\nclock 1\ndone 4\nclock 999\ndone 3\n"),
    # 0 to 700, 500 to 1200, 2000 to 2700, 2500 to 3200
    ("--hold 700", HEAD + "req /a\nclock 500\nreq /a\nclock 200\ndone 1\nclock 500\ndone 2\nclock 800\nreq /late\n"
     "clock 500\nreq /a\nclock 200\ndone 3\nclock 500\ndone 4\n"),
    # 380 and one for each byte: 0 to 500, 500 to 1000, 2000 to 2680, 2500 to 3000. What ends at a time ends before what comes
    ("--hold 380+1", HEAD + "req /a\nclock 500\ndone 1\nreq /a\nclock 500\ndone 2\nclock 1000\nreq /late\n"
     "clock 500\nreq /a\nclock 180\ndone 3\nclock 320\ndone 4\n"),
    ("--cache 50%", ALL.replace("cache 21", "cache 210")),
    ("--cache 1000 --scale 7", ALL.replace("cache 21", "cache 142").replace("120", "18").replace("300", "43")),
    ("--nodes 3 --low 2 --high 9 --age 0", ALL.replace("lab 1\n", "lab 1\nnodes 3\nlow 2\nhigh 9\nage 0\n")),
    ("--unknown 80", "lab 1\ncache 25\nfile /a 120\nfile /never 80\nfile /late 300\ngo\nreq /a\nclock 500\nreq /a\nclock 500\nreq /never\n"
     "clock 1000\nreq /late\nclock 500\nreq /a\n"),
    ("--from 10/Oct/2000:13:55:37", "lab 1\ncache 21\nfile /late 300\nfile /a 120\ngo\nreq /late\nclock 500\nreq /a\n"),
    ("--from 10/Oct/2000:22:55:38_+0200", "lab 1\ncache 21\nfile /late 300\nfile /a 120\ngo\nreq /late\nclock 500\nreq /a\n"),
]

# since a trace has one text for ever
DIGESTS = {
    "--zipf 1": "4741b91f7c2534f5",
    "--zipf 18446744073709551615 --files 5000 --alpha 1 --requests 3000 --every 2 --hold 40+500 --nodes 8 --cache 1000000": "1b200e02d3b3619d",
}

# ---- traces

BAD = [  # a text, and why it is no trace
    ("", "line 1: it ends before `go`"),
    ("lab 1\ngo", "line 2: no line feed at its end"),
    ("lab 2\ngo\n", "line 1: not a line of a trace"),
    ("go\n", "line 1: not a line of a trace"),
    ("lab 1\nlab 1\ngo\n", "line 2: not a line of a trace"),
    ("lab 1\n", "line 2: it ends before `go`"),
    ("lab 1\ngo\ngo\n", "line 3: not a line of a trace"),
    ("lab 1\nreq /a\ngo\n", "line 2: not a line of a trace"),
    ("lab 1\nfile /a 1\nnodes 2\ngo\n", "line 3: not a line of a trace"),
    ("lab 1\ngo\nfile /a 1\n", "line 3: not a line of a trace"),
    ("lab 1\nidle 3\ngo\n", "line 2: not a line of a trace"),
    ("lab 1\nnodes  3\ngo\n", "line 2: not a line of a trace"),
    ("lab 1\nnodes 03\ngo\n", "line 2: not a line of a trace"),
    ("lab 1\nnodes 65\ngo\n", "line 2: nodes out of range: 65"),
    ("lab 1\nnodes 3\nnodes 3\ngo\n", "line 3: nodes again"),
    ("lab 1\nlow 66\ngo\n", "line 3: low 66 above high 65"),
    ("lab 1\nnodes 1\nlow 1\ngo\n", "line 4: no request can be admitted"),
    ("lab 1\nfile a 1\ngo\n", "line 2: not a line of a trace"),
    ("lab 1\nfile /a?b 1\ngo\n", "line 2: a path with ?"),
    ("lab 1\nfile /a 1048577\ngo\n", "line 2: file too long: 1048577"),
    ("lab 1\nfile /a 1\nfile /a 1\ngo\n", "line 3: file repeated"),
    ("lab 1\n" + "".join(f"file /{at} 1048576\n" for at in range(65)) + "go\n", "line 67: files too large"),
    ("lab 1\ngo\nreq /" + 1024 * "a" + "\n", "line 3: not a line of a trace"),
    ("lab 1\ngo\ndone 4294967296\n", "line 3: not a line of a trace"),
    ("lab 1\ngo\nclock -1\n", "line 3: not a line of a trace"),
]


def made(config, files, events):
    """The text of a trace, of words that are separated by blanks, with its lines."""
    head = ["lab 1", *config.split(", "), *(f"file {it}" for it in files.split(", ")), "go"]
    words = {"+": "clock {}", "-": "done {}", "/": "req /{}"}
    return "".join(it + "\n" for it in [*head, *(words[it[0]].format(it[1:]) for it in events.split())])


TWO = "nodes 2, cache 10", "/a 6, /b 6", "/a /a /b"
THREE = "nodes 3, low 2, high 2, age 10", "/a 1, /b 1"  # room 5
ROWS = [  # a trace as the words of `made`, a policy, and its lines behind the heading, the nodes and hits in short, as 1h, 2m or f
    # the three rows of the lab's definition; the last one ends by `done 4` on line 10
    (TWO, "hash", "1m 1h 2m", "requests 3 hits 1 full 0, n1 requests 2 hits 1 peak 2, n2 requests 1 hits 0 peak 1"),
    (TWO, "rr", "1m 2m 1m", "requests 3 hits 0 full 0, n1 requests 2 hits 0 peak 2, n2 requests 1 hits 0 peak 1"),
    ((*TWO[:2], TWO[2] + " -4"), "lard", "1m 1h 2m", "line 10: request 4 is not open"),
    # a server is left with more than `high` while another has less than `low`; a full request; the peak is behind each request
    ((*THREE, "/a /a /a /a /a /b -1 /b"), "lard", "1m 1h 1h 2m 2h f 3m",
     "requests 7 hits 3 full 1, n1 requests 3 hits 2 peak 3, n2 requests 2 hits 1 peak 2, n3 requests 1 hits 0 peak 1"),
    # with twice `high`, though none has less than `low`: room 30
    (("nodes 4, low 1, high 10", "/a 1, /b 1, /c 1, /d 1", "/a /b /c /d " + 20 * "/a "), "lard", "1m 2m 3m 4m " + 19 * "1h " + "2m",
     "requests 24 hits 19 full 0, n1 requests 20 hits 19 peak 20, n2 requests 2 hits 0 peak 2, n3 requests 1 hits 0 peak 1, "
     "n4 requests 1 hits 0 peak 1"),
    # a set that did not change for more than `age` loses its most loaded node, and for no more than `age` keeps it
    ((*THREE, "/a /a /a /a +11 /a -1 -2 -3 -4 -5 /a"), "lardr", "1m 1h 1h 2m 2h 2h",
     "requests 6 hits 4 full 0, n1 requests 3 hits 2 peak 3, n2 requests 3 hits 2 peak 2, n3 requests 0 hits 0 peak 0"),
    ((*THREE, "/a /a /a /a +10 /a -1 -2 -3 -4 -5 /a"), "lardr", "1m 1h 1h 2m 2h 1h",
     "requests 6 hits 4 full 0, n1 requests 4 hits 3 peak 3, n2 requests 2 hits 1 peak 2, n3 requests 0 hits 0 peak 0"),
    # of two with equal loads the greater number leaves
    ((*THREE, "/a /a /a /a -1 -2 +11 /a /a"), "lardr", "1m 1h 1h 2m 1h 1h",
     "requests 6 hits 4 full 0, n1 requests 5 hits 4 peak 3, n2 requests 1 hits 0 peak 1, n3 requests 0 hits 0 peak 0"),
    # what was asked for longest ago leaves the cache; what is larger than it never comes in; an empty file does
    (("nodes 1, cache 10", "/a 6, /b 4, /c 3, /big 11, /zero 0", "/a /b /a /c /b /a /big /big /b /zero /zero"), "rr",
     "1m 1m 1h 1m 1m 1m 1m 1m 1h 1m 1h", "requests 11 hits 3 full 0, n1 requests 11 hits 3 peak 11"),
    # full requests have numbers, which rr counts and `done` does not know
    (("nodes 2, low 1, high 1", "/a 1", "/a /a -1 /a -3 /a"), "rr", "1m f 1h 2m",
     "requests 4 hits 1 full 1, n1 requests 2 hits 1 peak 1, n2 requests 1 hits 0 peak 1"),
    (("nodes 2, low 1, high 1", "/a 1", "/a /a -2"), "hash", "1m f", "line 9: request 2 is not open"),
    (("nodes 2, low 9", "/a 1", "/a -1 -1"), "rr", "1m", "line 8: request 1 is not open"),
    (("nodes 2, low 9", "/a 1", "-0"), "rr", "", "line 6: request 0 is not open"),
    (("nodes 2, low 9", "/a 1", "/a /b"), "rr", "1m", "line 7: no such file"),
]

HEAD_OF_TWO = "lab rr nodes 2 low 25 high 65 age 20000 cache 10\n"
LAB_REFUSED = [  # a text, what is written of it by rr, the line on standard error, and the status
    ("", "", "line 1: not a line of the schedule", 2),
    ("lab 1", "", "line 1: not a line of the schedule", 2),
    ("lard 1\ngo\n", "", "line 1: not a line of the schedule", 2),
    ("lab 1\nnodes 2\n", "", "line 3: not a line of the schedule", 2),
    ("lab 1\nidle 5\ngo\n", "", "line 2: not a line of the schedule", 2),
    ("lab 1\nnodes 2\nnodes 2\ngo\n", "", "line 3: not a line of the schedule", 2),
    ("lab 1\nfile /a 1\nnodes 2\ngo\n", "", "line 3: not a line of the schedule", 2),
    ("lab 1\nfile /a?b 1\ngo\n", "", "line 2: not a line of the schedule", 2),
    ("lab 1\nfile /a 1048577\ngo\n", "", "line 2: not a line of the schedule", 2),
    ("lab 1\nnodes 65\ngo\n", "", "line 2: nodes out of range: 65", 2),
    ("lab 1\nlow 66\ngo\n", "", "line 3: low 66 above high 65", 2),
    ("lab 1\nnodes 1\nlow 1\ngo\n", "", "line 4: no connection can be admitted", 2),
    ("lab 1\nfile /a 1\nfile /a 2\ngo\n", "", "line 3: file repeated", 2),
    ("lab 1\n" + "".join(f"file /{at} 1048576\n" for at in range(65)) + "go\n", "", "line 66: files too large: 68157440", 2),
    ("lab 1\ncache 10\ngo\ngo\n", HEAD_OF_TWO, "line 4: not a line of the schedule", 2),
    ("lab 1\ncache 10\nfile /a 6\ngo\nreq /a\nreq /a?\n", HEAD_OF_TWO + "1 /a n1 miss\n", "line 6: no such file", 2),
    ("lab 1\ncache 10\nfile /a 6\ngo\nreq /a\nreq  /a\n", HEAD_OF_TWO + "1 /a n1 miss\n", "line 6: not a line of the schedule", 2),
    ("lab 1\ncache 10\nfile /a 6\ngo\nreq /a\nreq /a", HEAD_OF_TWO + "1 /a n1 miss\n", "line 6: not a line of the schedule", 2),
    ("lab 1\ncache 10\nfile /a 6\ngo\nreq /a\ndone 01\n", HEAD_OF_TWO + "1 /a n1 miss\n", "line 6: not a line of the schedule", 2),
    ("lab 1\ncache 10\nfile /a 6\ngo\nreq /a\nclock 4294967296\n", HEAD_OF_TWO + "1 /a n1 miss\n", "line 6: not a line of the schedule", 2),
]

# ---- tables of tools/policies

HEADINGS = """3 requests of 2 files in 1 trace
cache 10 bytes at each node, low 25, high 65, age 20,000 ms; by lardsim lab

nodes  policy   requests       hits     full  misses  greatest load over mean
"""
# of the first rows above, where the loads behind each request are those of 1 and 0, 1 and 1, 2 and 1; or 1 and 0, 2 and 0, 2 and 1
TABLES = [  # a trace, options, and the rows: nodes, policy, requests, hits, full, share of misses, greatest load over mean
    (TWO, "--nodes 2", "2 rr 3 0 0 1.000 1.44, 2 hash 3 1 0 0.667 1.78, 2 lard 3 1 0 0.667 1.78, 2 lardr 3 1 0 0.667 1.78, 2 one 3 1 0 0.667 -"),
    (TWO, "--nodes 1,2 --policy one,rr", "1 rr 3 1 0 0.667 1.00, 1 one 3 1 0 0.667 -, 2 rr 3 0 0 1.000 1.44, 2 one 3 1 0 0.667 -"),
    (TWO, "--nodes 2 --policy rr,hash --skip 1", "2 rr 2 0 0 1.000 1.17, 2 hash 2 1 0 0.500 1.67"),
    (TWO, "--nodes 2 --policy rr,hash --window 1", "2 rr 3 0 0 1.000 2.00, 2 hash 3 1 0 0.667 2.00"),
    (TWO, "--nodes 1,2 --policy rr,one --low 2 --high 2", "1 rr 1 0 2 1.000 1.00, 1 one 1 0 0 1.000 -, 2 rr 3 0 0 1.000 1.44, 2 one 3 1 0 0.667 -"),
    (TWO, "--nodes 1 --policy rr --low 2 --high 2 --window room", "1 rr 3 1 0 0.667 1.00"),
    (TWO, "--nodes 2 --policy rr,hash --cache 5", "2 rr 3 0 0 1.000 1.44, 2 hash 3 0 0 1.000 1.78"),
    (TWO, "--nodes 3 --policy rr,lard", "3 rr 3 0 0 1.000 1.83, 3 lard 3 1 0 0.667 2.67"),
    # the caches of two nodes in one hold both files
    ((*TWO[:2], "/a /b /a"), "--nodes 1,2 --policy rr,one", "1 rr 3 0 0 1.000 1.00, 1 one 3 0 0 1.000 -, 2 rr 3 1 0 0.667 1.44, 2 one 3 1 0 0.667 -"),
    # at one node the second request is full, and then never done
    (("nodes 2, low 9", "/a 1", "/a /a -1 -2 /a"), "--nodes 1 --policy rr,one --low 2 --high 2", "1 rr 2 1 1 0.500 1.00, 1 one 2 1 0 0.500 -"),
]

# ---- words

MISUSES = [  # words, and the line on standard error
    ("tools/trace", "trace: usage: tools/trace LOG.. [OPTIONS], or tools/trace --zipf SEED [OPTIONS]"),
    ("tools/trace x --zipf 1", "trace: usage: tools/trace LOG.. [OPTIONS], or tools/trace --zipf SEED [OPTIONS]"),
    ("tools/trace none", "trace: none: No such file or directory"),
    ("tools/trace --zipf 1 --sample 2", "trace: --sample is for logs"),
    ("tools/trace x --files 2", "trace: --files is for --zipf"),
    ("tools/trace x --window 2 --hold 3", "trace: only one of --durations, --hold and --window can say how long a request is open"),
    ("tools/trace x --durations ms", "trace: --durations ms: not D or T"),
    ("tools/trace --zipf 1 --hold x", "trace: --hold x: not MS or MS+B"),
    ("tools/trace --zipf 1 --hold 5+0", "trace: --hold 5+0: not MS or MS+B"),
    ("tools/trace --zipf 1 --alpha -1", "trace: --alpha -1: not a number below 20"),
    ("tools/trace --zipf 1 --files 65537", "trace: --files 65537: not a number from 1 to 65,536"),
    ("tools/trace --zipf 1 --what", "trace: no option --what"),
    ("tools/policies", "policies: usage: tools/policies TRACE.. [OPTIONS]"),
    ("tools/policies none", "policies: none: No such file or directory"),
    ("tools/policies x --nodes 0", "policies: --nodes 0: 0 is none of 1 to 64, or stands there twice"),
    ("tools/policies x --nodes 2,2", "policies: --nodes 2,2: 2 is none of 1 to 64, or stands there twice"),
    ("tools/policies x --policy rr,", "policies: --policy rr,: an empty word is none of rr to one, or stands there twice"),
    ("tools/policies x --window 0", "policies: --window 0: not a number from 1 to 16,384"),
    ("tools/policies README.md", "policies: README.md: line 1: not a line of a trace"),
]
REFUSED = [  # a trace, options, and the last line on standard error
    (("nodes 2, low 9", "/a 1", "/a /b"), "", "policies: TRACE: line 7: no such file"),
    (("nodes 2, low 9", "/a 1", "/a -2"), "", "policies: TRACE: line 7: request 2 is not open"),
    (("nodes 1, low 2, high 2", "/a 1", "/a /a"), "--nodes 2", "policies: TRACE: with its own numbers 1 of 2 requests find no room, and have no "
     "`done`, so it serves no more nodes: make it with `tools/trace --nodes 2`, or give --window"),
    (("nodes 2, low 9", "/a 1", "/a"), "--low 66", "policies: low 66 above high 65"),
]

# ---- pictures

FIVE = [*POLICIES, "one"]
PICTURES = [
    ("--nodes 1,2,4,8,12,16", [1, 2, 4, 8, 12, 16], FIVE),
    ("--nodes 1,2,3,4,32,63,64 --policy rr,lard", [1, 2, 3, 4, 32, 63, 64], ["rr", "lard"]),
    ("--nodes 5", [5], FIVE),
    ("--nodes 1,24 --policy lardr,one", [1, 24], ["lardr", "one"]),
    ("--nodes 2,3 --policy one", [2, 3], ["one"]),
]
