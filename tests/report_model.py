#!/usr/bin/env python3
# The report of document 01 and the requests, written from their text alone: it made the stored outputs of crates/cases_report and crates/cases_lines,
# and tools/test-reports holds them and the samples to it.
#   report_model.py < INPUT             prints the report of the input
#   report_model.py --cases             prints what crates/cases_report must print
#   report_model.py --lines < LINES     prints what crates/cases_lines must print
import re
import sys

SITES, CAPACITY, SLOTS, LARGEST, LIMIT = 3, 8, 8, 4294967295, 32768
NUMBER = "([0-9]{1,20})"
FORMS = {
    "add": "step=add node=N id=N", "remove": "step=remove node=N id=N", "query": "step=query node=N id=N",
    "send": "step=send from=N to=N id=N", "merge": "step=merge from=N to=N",
    "deliver": "step=deliver slot=N", "again": "step=again slot=N", "lose": "step=lose slot=N",
}
PATTERNS = {kind: re.compile(form.replace("=N", "=" + NUMBER).encode()) for kind, form in FORMS.items()}


def step_of(line):
    for kind, pattern in PATTERNS.items():
        found = pattern.fullmatch(line)
        if found:
            numbers = [int(n) for n in found.groups()]
            return None if any(n > 2**64 - 1 for n in numbers) else (kind, numbers)
    return None


class Run:
    def __init__(self):
        self.tables = [{} for _ in range(SITES)]
        self.slots = [None] * SLOTS
        self.counts = {"sent": 0, "copied": 0, "absorbed": 0, "lost": 0}

    def length(self, site, i):
        return self.tables[site].get(i, 0)

    def lacks_room(self, site, entries):
        return len(set(self.tables[site]) | set(entries)) > CAPACITY

    def free(self):
        return self.slots.index(None) if None in self.slots else None

    # the refusal and the other result
    def step(self, kind, numbers):
        if kind in ("add", "remove", "query"):
            site, i = numbers
            if site >= SITES:
                return 3, 0
            n = self.length(site, i)
            if kind == "query":
                return 0, n
            if kind == "add":
                after = n if n % 2 == 1 else n + 1
                if self.lacks_room(site, [i]):
                    return 8, 0
            else:
                after = n + 1 if n % 2 == 1 else n
                if after > LARGEST:
                    return 7, 0
            if after > 0:
                self.tables[site][i] = after
            return 0, after
        if kind == "send":
            source, target, i = numbers
            if source >= SITES or target >= SITES:
                return 3, 0
            if source == target:
                return 4, 0
            if self.length(source, i) == 0:
                return 6, 0
            slot = self.free()
            if slot is None:
                return 9, 0
            self.slots[slot] = (target, i, self.length(source, i))
            self.counts["sent"] += 1
            return 0, slot
        if kind == "merge":
            source, target = numbers
            if source >= SITES or target >= SITES:
                return 3, 0
            if source == target:
                return 4, 0
            if self.lacks_room(target, self.tables[source]):
                return 8, 0
            rises = 0
            for i, n in self.tables[source].items():
                if n > self.length(target, i):
                    self.tables[target][i] = n
                    rises += 1
            return 0, rises
        slot = numbers[0]
        if slot >= SLOTS or self.slots[slot] is None:
            return 5, 0
        site, i, n = self.slots[slot]
        if kind == "again":
            other = self.free()
            if other is None:
                return 9, 0
            self.slots[other] = self.slots[slot]
            self.counts["copied"] += 1
            return 0, other
        if kind == "lose":
            self.slots[slot] = None
            self.counts["lost"] += 1
            return 0, 0
        if self.lacks_room(site, [i]):
            return 8, 0
        self.tables[site][i] = max(n, self.length(site, i))
        self.slots[slot] = None
        self.counts["absorbed"] += 1
        return 0, self.tables[site][i]


def report(text):
    if len(text) > LIMIT:
        return b"refused=12\n"
    run, out = Run(), []
    *lines, last = text.split(b"\n")
    for count, line in enumerate(lines, 1):
        step = step_of(line)
        if step is None:
            out.append("line=%d refused=11" % count)
            continue
        refusal, value = run.step(*step)
        if refusal:
            out.append("line=%d refused=%d" % (count, refusal))
        elif step[0] == "query":
            out.append("line=%d node=%d id=%d length=%d present=%d" % (count, *step[1], value, value % 2))
    if last:
        out.append("line=%d refused=11" % (len(lines) + 1))
    out += ["%s=%d" % count for count in run.counts.items()]
    out.append("waiting=%d" % sum(slot is not None for slot in run.slots))
    out += ["node=%d held=%d shown=%d" % (k, len(table), sum(n % 2 for n in table.values())) for k, table in enumerate(run.tables)]
    return ("\n".join(out) + "\n").encode()


# ---- the cases of crates/cases_report
def add(k, i): return "step=add node=%d id=%d\n" % (k, i)
def remove(k, i): return "step=remove node=%d id=%d\n" % (k, i)
def query(k, i): return "step=query node=%d id=%d\n" % (k, i)
def send(f, t, i): return "step=send from=%d to=%d id=%d\n" % (f, t, i)
def deliver(s): return "step=deliver slot=%d\n" % s


# Table 1 of the paper: sites A, B, C are 0, 1, 2, and the element a is id 1. A query follows each step that makes a state.
A, B, C = 0, 1, 2
TABLE_1 = "".join([
    query(A, 1), query(B, 1), query(C, 1),
    add(A, 1), query(A, 1), send(A, B, 1),
    add(B, 1), query(B, 1), send(B, A, 1), send(B, C, 1),
    deliver(2), query(C, 1),
    remove(B, 1), query(B, 1), send(B, C, 1),
    remove(C, 1), query(C, 1), send(C, B, 1),
    deliver(1), query(A, 1),
    deliver(0), query(B, 1),
    remove(A, 1), query(A, 1), send(A, B, 1),
    deliver(2), query(C, 1),
    deliver(0), query(B, 1),
    add(B, 1), query(B, 1), send(B, C, 1),
    deliver(3), query(B, 1),
    deliver(0), query(C, 1),
    remove(C, 1), query(C, 1),
])
REFUSALS = "".join([
    add(3, 1), send(0, 0, 1), deliver(0), send(0, 1, 1), "".join(add(0, i) for i in range(9)), send(0, 1, 0),
    "step=again slot=0\n" * 8, "step=merge from=0 to=1\n", "step=merge from=1 to=1\n", "step=lose slot=7\n", "step=lose slot=8\n",
])
NUMBERS = "step=add node=0 id=18446744073709551615\nstep=query node=0 id=18446744073709551615\nstep=query node=0 id=18446744073709551616\nstep=query node=0 id=00\nstep=query node=00 id=0\nstep=query node=00000000000000000000 id=000000000000000000000\nstep=query node=0 id=0 \n step=query node=0 id=0\n"
WHOLE = [
    ("no input", ""),
    ("one line end", "\n"),
    ("one byte", "s"),
    ("an unended last line", add(0, 7) + query(0, 7)[:-1]),
    ("empty lines", "\n\n" + query(2, 5) + "\n"),
    ("carriage returns", "step=add node=0 id=7\r\nstep=query node=0 id=7\r\n"),
    ("numbers", NUMBERS),
    ("refusals", REFUSALS),
    ("Table 1", TABLE_1),
]
QUERIES = query(0, 0) * 1425
LONG = [
    ("32,768 line ends", "\n" * 32768),
    ("32,768 bytes of queries", QUERIES[:32768]),
    ("32,768 bytes in one piece", "s" * 32768),
]
OVER = [
    ("32,769 line ends", "\n" * 32769),
    ("32,769 bytes of queries", QUERIES[:32769]),
]


# ---- the lines of crates/cases_lines: the refusal, or the four numbers and the line written from them
def four_numbers(kind, numbers):
    form = FORMS[kind]
    second = numbers[1] if " to=" in form else 0
    i = numbers[-1] if " id=" in form else 0
    return list(FORMS).index(kind) + 1, numbers[0], second, i


def written(kind, numbers):
    return FORMS[kind].replace("=N", "=%d") % tuple(numbers)


def lines(text):
    out = []
    for count, line in enumerate(text.split(b"\n")[:-1], 1):
        step = step_of(line)
        said = "refused=11" if step is None else "kind=%d first=%d second=%d id=%d " % four_numbers(*step) + written(*step)
        out.append("line=%d %s\n" % (count, said))
    return "".join(out).encode()


def checksum(text):
    s = 0
    for b in text:
        s = (s * 31 + b) % 1000003
    return s


def cases():
    out = b""
    for name, text in WHOLE + OVER:
        out += b"-- " + name.encode() + b"\n" + report(text.encode())
    for name, text in LONG:
        said = report(text.encode())
        k = min(200, len(said))
        out += b"-- %s\nbytes=%d sum=%d\n" % (name.encode(), len(said), checksum(said)) + said[:k] + b"\n..\n" + said[len(said) - k:]
    return out


if __name__ == "__main__":
    asked = sys.argv[1:]
    sys.stdout.buffer.write(cases() if asked == ["--cases"] else (lines if asked == ["--lines"] else report)(sys.stdin.buffer.read()))
