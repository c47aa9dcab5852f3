"""Reads access logs of web servers, in the Common and the Combined Log Format: what tools/trace makes a trace of.

    log = Log()
    with open("access.log", "rb") as file:
        log.read(file, "access.log")
    log.times, log.paths, log.lasting    # of each request, in the order of the lines
    log.names, log.sizes                 # of each path, by its number
    log.left_out                         # how many lines gave no request, by cause

A line is a host, two names, a time, a request line, a status and the bytes that were sent; what stands behind is not looked
at, but for a duration as the last field, where one is asked for. A line that cannot be read is counted, and ends nothing.
"""

import datetime
import gzip
import re
import zlib
from array import array
from collections import Counter

LONGEST = 65536       # bytes of a line
LONGEST_PATH = 1024
PROGRESS = 10**6      # lines after which progress is told
GZIP = b"\x1f\x8b"    # how a file that is compressed begins
LINE = re.compile(rb"\S+ \S+ .+? \[(\d\d/[A-Z][a-z][a-z]/\d{4}):(\d\d):(\d\d):(\d\d)(?:\.(\d{1,9}))? ([+-])(\d\d)(\d\d)\] "
                  rb'"((?:[^"\\]|\\.)*)" (\d{3}) (\d{1,18}|-)(?: (.*))?')
DURATION = re.compile(rb"(\d{1,12})(?:\.(\d{1,9}))?")
UNITS = {"D": 1000, "T": 10**9}  # nanoseconds of one: Apache's %D are microseconds, and %T seconds
HOST = re.compile(rb"[A-Za-z][A-Za-z0-9+.-]*://[^/]*")
PATH = re.compile(rb"/[!-~]{0,%d}" % (LONGEST_PATH - 1))
MONTHS = b"Jan Feb Mar Apr May Jun Jul Aug Sep Oct Nov Dec".split()
STATUSES = {b"200", b"206", b"304"}

NO_LINE = "not in the Common or the Combined Log Format"
TOO_LONG = f"longer than {LONGEST:,} bytes"
NO_TIME = "a time that there is not"
NO_REQUEST = "no request line"
NO_METHOD = "another method than GET and HEAD"
NO_STATUS = "another status than 200, 206 and 304"
NO_PATH = f"no path: not / first, above {LONGEST_PATH:,} bytes, or bytes that are not visible"
NO_DURATION = "no duration as the last field"
NO_SIZE = "of a path that no GET got with 200, so its size is not known (--unknown SIZE gives one)"


class LeftOut(Exception):
    """A line that gives no request, by its cause."""


class Log:
    """The requests of logs: of each its time in milliseconds since 1970, the number of its path, and how long it lasted, in
    milliseconds. Of each path its name, and its size where it is known. Of each cause how many lines it left out, and which first."""

    def __init__(self, duration=None):
        self.unit = UNITS[duration] if duration else None
        self.times, self.paths, self.lasting = array("q"), array("L"), array("q")
        self.names, self.sizes, self.numbers = [], [], {}
        self.left_out, self.first = Counter(), {}
        self.lines, self.has_fractions, self.zone = 0, False, None
        self.days = {}

    def read(self, file, name, progress=None):
        """Reads a log, which may be compressed by gzip. Why it ends too early, or None. progress is called now and then."""
        source = gzip.GzipFile(fileobj=file) if file.peek(2)[:2] == GZIP else file
        at = 0
        try:
            for at, line in enumerate(lines_of(source), 1):
                self.lines += 1
                if progress and self.lines % PROGRESS == 0:
                    progress(self.lines)
                try:
                    self.take(line)
                except LeftOut as cause:
                    self.leave_out(str(cause), f"line {at} of {name}")
        except (EOFError, gzip.BadGzipFile, zlib.error) as error:
            return f"{name}: the compressed file breaks off behind line {at}: {error}"
        return None

    def leave_out(self, cause, where):
        self.left_out[cause] += 1
        self.first.setdefault(cause, where)

    def take(self, line):
        if len(line) > LONGEST:
            raise LeftOut(TOO_LONG)
        found = LINE.fullmatch(line)
        if not found:
            raise LeftOut(NO_LINE)
        request, status, size, rest = found.group(9, 10, 11, 12)
        time = self.time_of(*found.group(1, 2, 3, 4, 5, 6, 7, 8))
        method, target = words_of(request)
        if status not in STATUSES:
            raise LeftOut(NO_STATUS)
        path = path_of(target)
        lasts = milliseconds(rest, self.unit) if self.unit else 0
        number = self.numbers.setdefault(path, len(self.names))
        if number == len(self.names):
            self.names.append(path)
            self.sizes.append(None)
        if method == b"GET" and status == b"200":  # `-` is what the format writes for no bytes
            self.sizes[number] = max(self.sizes[number] or 0, 0 if size == b"-" else int(size))
        self.times.append(time)
        self.paths.append(number)
        self.lasting.append(lasts)

    def time_of(self, date, hour, minute, second, fraction, sign, zone_hours, zone_minutes):
        """Milliseconds since 1970."""
        if date not in self.days:
            self.days[date] = day_of(date)
        hour, minute, second, zone_minutes = int(hour), int(minute), int(second), int(zone_minutes)
        if self.days[date] is None or hour > 23 or minute > 59 or second > 60 or zone_minutes > 59:
            raise LeftOut(NO_TIME)
        if fraction:
            self.has_fractions = True
        zone = (int(zone_hours) * 60 + zone_minutes) * (-1 if sign == b"-" else 1)
        if self.zone is None:
            self.zone = zone
        minutes = (self.days[date] * 24 + hour) * 60 + minute - zone
        return (minutes * 60 + second) * 1000 + int((fraction or b"").ljust(3, b"0")[:3])


def lines_of(source):
    """The lines, without what ends them. Of one that is too long comes as much as shows that."""
    while line := source.readline(LONGEST + 2):
        whole = line
        while whole and not whole.endswith(b"\n"):
            whole = source.readline(LONGEST)
        yield line.rstrip(b"\r\n")


def day_of(date):
    """The days since 1970 until one as 10/Oct/2000, or None where there is no such day."""
    day, month, year = date.split(b"/")
    try:
        return datetime.date(int(year), MONTHS.index(month) + 1, int(day)).toordinal() - datetime.date(1970, 1, 1).toordinal()
    except ValueError:
        return None


def words_of(request):
    """The method and the target of a request line. Without a version it is one of HTTP/0.9."""
    words = request.split(b" ")
    if len(words) not in (2, 3) or not all(words) or len(words) == 3 and not words[2].startswith(b"HTTP/"):
        raise LeftOut(NO_REQUEST)
    if words[0] not in (b"GET", b"HEAD"):
        raise LeftOut(NO_METHOD)
    return words[:2]


def path_of(target):
    """The path of a target: what precedes `?` and `#`, and of an absolute form what follows its host. Escaped quotes and
    backslashes become what they stand for."""
    path = target.partition(b"?")[0].partition(b"#")[0]
    if b"\\" in path:
        path = re.sub(rb'\\(["\\])', rb"\1", path)
    host = path[:1] != b"/" and HOST.match(path)
    if host:
        path = path[host.end():] or b"/"
    if not PATH.fullmatch(path):
        raise LeftOut(NO_PATH)
    return path


def milliseconds(rest, unit):
    """How long a request lasted by the last field of its line, rounded up to whole milliseconds."""
    found = DURATION.fullmatch((rest or b"").rpartition(b" ")[2])
    if not found:
        raise LeftOut(NO_DURATION)
    billionths = int(found[1]) * 10**9 + int((found[2] or b"").ljust(9, b"0"))
    return -(-billionths * unit // 10**15)
