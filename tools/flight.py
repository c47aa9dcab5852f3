"""What is on the way, which timers run, and which jobs wait, as the records of a report so far tell it."""

import report as reports


class Flight:
    """packets: each that was sent and neither came nor was lost, by its number. timers: (place, connection, kind), in the order
    in which they were armed. jobs: the `queued` of each job that waits, of each node, in the order of its queue."""

    def __init__(self):
        self.packets, self.timers, self.jobs = {}, {}, {}

    def take(self, step, record):
        """One record more, of this step."""
        kind = record.kind
        if kind == "sent":
            self.packets[record.packet] = record
        elif kind in ("got", "lost"):
            self.packets.pop(record.packet, None)
        elif kind == "armed":
            self.timers[record.place, record.connection, record.timer] = record
        elif kind == "cleared":
            self.timers.pop((record.place, record.connection, record.timer), None)
        elif kind == "queued":
            self.jobs.setdefault(record.place, []).append(record)
        elif kind == "read":  # the event says which place it had in the queue
            del self.jobs.get(record.place, [])[step.event.job - 1:step.event.job]

    def is_queued(self, place, reader, connection, request):
        """Whether a job of this request waits at a node, for that reader."""
        return any((job.reader, job.connection, job.request) == (reader, connection, request) for job in self.jobs.get(place, []))


def behind(report, name):
    """The flight behind the event of this number, or the step of this name inside one; and that step. Behind event 0 nothing
    has happened. None where there is no such step."""
    flight, last = Flight(), None
    if name == "0":
        return flight, None
    for step in report.steps:
        if last and (last.name == name or step.event.kind == "event" and last.name.split(".")[0] == name):
            return flight, last
        for record in step.records:
            flight.take(step, record)
        last = step
    return (flight, last) if last and name in (last.name, last.name.split(".")[0]) else None


def rows(report, flight, chosen):
    """What there is of these connections: a line of a schedule that would move it on, and what it is."""
    packets = [it for it in flight.packets.values() if it.connection in chosen]
    timers = {}
    for place, connection, kind in flight.timers:
        if connection in chosen:
            timers.setdefault((place, connection), []).append(kind)
    jobs = [(place, at, job) for place in sorted(flight.jobs, key=reports.number_of) for at, job in enumerate(flight.jobs[place], 1)]
    return {
        "on the way": [(f"deliver {it.packet}", f"{it.source} -> {it.target}  {reports.brief(report, it)}") for it in packets],
        "timers that run": [(f"timer {key[0]} {key[1]}", ", ".join(timers[key])) for key in sorted(timers, key=in_order)],
        "jobs that wait": [(f"disk {place[1:]} {at}", told(place, job)) for place, at, job in jobs if job.connection in chosen],
    }


def in_order(key):
    """The front end first, then nodes, then clients; each by the numbers of the place and of the connection."""
    place, connection = key
    return "fnc".index(place[0]), reports.number_of(place), connection


def told(place, job):
    reader = "its own" if job.reader == place else f"{job.reader}'s"
    return f"{job.path}, for {reader} request {job.request} of connection {job.connection}"


def listing(report, name, chosen):
    """The lines of `--flight`, or None where there is no such event."""
    found = behind(report, name)
    if found is None:
        return None
    flight, step = found
    where = "before the first event" if step is None else f"behind {'event' if '.' not in name else 'step'} {name}"
    if step and step.name == name:
        where += f", `{step.event.text}`"
    lines = [where]
    for title, found_rows in rows(report, flight, chosen).items():
        lines.append(f"{title}:" + ("" if found_rows else " none"))
        width = max((len(line) for line, _ in found_rows), default=0)
        lines += [f"  {line:{width}}   {text}" for line, text in found_rows]
    return lines
