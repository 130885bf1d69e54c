"""Run sheets to measure on: the inputs of the table, and pairs of inputs that differ by one call."""

ROOM = 65_536
AHEAD = 100_000  # the start of the first kept event


def n(number, size):
    return number.to_bytes(size, "big")


# The records of a run sheet.
def stream(scheme):
    return b"SV" + n(len(scheme), 1) + n(0, 1) + scheme


def follow(number, mode):
    return b"FO" + n(number, 1) + n(mode, 1)


def leave(number):
    return b"LV" + n(number, 1)


def play(to):
    return b"PL" + n(to, 8)


def seek(to):
    return b"SK" + n(to, 8)


def evict(first, last):
    return b"EX" + n(first, 8) + n(last, 8)


def sheet(entries, start=0):
    return b"MP" + n(start, 8) + n(len(entries), 2) + entries


def segment(boxes):
    """A segment that arrives at 1000 and counts in milliseconds."""
    times = n(1000, 8) + n(0, 8) + n(1000, 4) + n(0, 8) + n(1000, 4)
    return b"SG" + n(0, 8) + times + n(len(boxes), 2) + boxes


# The records of a sheet, and boxes.
def of(scheme):
    return b"ES" + n(1000, 4) + n(0, 8) + n(len(scheme), 1) + n(0, 1) + scheme


def event(time, ident, duration=None, text=None):
    """An event with an id; with a duration where there is one, and a base64 text where there is one."""
    flags = 2 + (duration is not None) + 4 * (text is not None)
    text = text or b""
    return b"EV" + n(flags, 1) + n(time, 8) + n(duration or 0, 4) + n(ident, 4) + n(len(text), 2) + text


def box(kind, body):
    return n(8 + len(body), 4) + kind + body


def emsg(delta, ident, scheme=b"a"):
    return box(b"emsg", bytes(4) + scheme + b"\0\0" + n(1000, 4) + n(delta, 4) + n(5, 4) + n(ident, 4))


def emsg1(time, ident):
    return box(b"emsg", b"\1\0\0\0" + n(1000, 4) + n(time, 8) + n(5, 4) + n(ident, 4) + b"a\0\0")


# As many parts as there is room for, each made from its number: in the run sheet, in one sheet, in one segment.
def many(front, part, most=ROOM):
    size = len(part(0))
    return front + b"".join(part(k) for k in range(min(most, (ROOM - len(front)) // size)))


def long_sheet(front, opening, part):
    return front + sheet(many(opening, part, (ROOM - len(front) - 12 - len(opening)) // len(part(0))))


def long_segment(front, part):
    return front + segment(many(b"", part, (ROOM - len(front) - 44) // len(part(0))))


# What fills the tables: kept events one millisecond apart, and events told at once, whose ids are used.
def kept(count, duration=5):
    return sheet(of(b"a") + b"".join(event(AHEAD + k, 10_000 + k, duration) for k in range(count)))


def used(count):
    return sheet(of(b"a") + b"".join(event(0, 2 * k + 2) for k in range(count)))


PASSED = stream(b"a")
ON_START = PASSED + follow(0, 2)
ON_RECEIVE = PASSED + follow(0, 1)
SCHEMES = [b"urn:scheme:%02d" % k for k in range(32)]
LISTED = b"".join(stream(scheme) for scheme in SCHEMES)
BESIDE = PASSED + stream(b"b") + follow(0, 2)  # another stream to follow and leave


def inputs():
    """The inputs of the table, by name."""
    return {
        "emsg boxes of version 0, passed": long_segment(PASSED, lambda k: emsg(k, k)),
        "emsg boxes of version 1, passed": long_segment(PASSED, lambda k: emsg1(k, k)),
        "emsg boxes, over": long_segment(ON_START + play(9000), lambda k: emsg(k, k)),
        "emsg boxes, repeats of 64 kept ids": long_segment(ON_START, lambda k: emsg(AHEAD + k, k % 64)),
        "emsg boxes of the last of 32 streams": long_segment(LISTED, lambda k: emsg(k, k, SCHEMES[-1])),
        "other boxes of 8 bytes": long_segment(PASSED, lambda k: box(b"free", b"")),
        "other boxes of 200 bytes": long_segment(PASSED, lambda k: box(b"moof", bytes(192))),
        "long sheet, passed": long_sheet(PASSED, of(b"a"), lambda k: event(k, k, 5)),
        "long sheet, repeats of 250 used ids": long_sheet(ON_START, of(b"a"), lambda k: event(0, k % 250)),
        "long sheet, repeats of 64 kept ids": long_sheet(ON_START, of(b"a"), lambda k: event(AHEAD + k % 64, k % 64)),
        "long sheet of openings, 32 streams": long_sheet(LISTED, b"", lambda k: of(SCHEMES[-1])),
        "base64 message of 48 KiB": ON_START + sheet(of(b"a") + event(9, 1, None, b"QUJD" * 12_288)),
        "base64 message of 64 KiB": ON_START + sheet(of(b"a") + event(9, 1, None, b"QUJD" * 16_360)),
        "base64 messages of 8 bytes": long_sheet(PASSED, of(b"a"), lambda k: event(9, 1, None, b"QUJDRA==")),
        "plays over 63 kept": many(ON_START + kept(63), lambda k: play(k)),
        "seeks ahead of 63 kept": many(ON_START + kept(63), lambda k: seek(k * 7919 % AHEAD)),
        "seeks behind 63 kept": many(ON_START + kept(63), lambda k: seek(2 * AHEAD + k * 7919 % AHEAD)),
        "evictions over 63 kept": many(ON_START + kept(63), lambda k: evict(1, k + 1)),
        "one kept and evicted, over 63 kept": many(
            ON_START + kept(63), lambda k: sheet(of(b"a") + event(AHEAD, 7), 5) + evict(5, 6)
        ),
        "follows and leaves over 63 kept, 190 used": many(
            BESIDE + used(190) + kept(63), lambda k: follow(1, 2) + leave(1)
        ),
        "256 told on receive": ON_RECEIVE + sheet(of(b"a") + b"".join(event(k, k, 5) for k in range(256))),
        "256 told by 128 plays": many(
            ON_START,
            lambda k: sheet(of(b"a") + event(100 * k + 50, 2 * k) + event(100 * k + 51, 2 * k + 1)) + play(100 * k + 99),
            128,
        ),
        "much output, 21,843 refused leaves": many(PASSED, lambda k: leave(1)),
    }


def growth(kept_counts, used_counts, told_counts):
    """Pairs of inputs that differ by one call: what it is, what there is before it, and the two inputs."""
    pairs = []

    def add(call, before, front, last):
        pairs.append((call, before, front, front + last))

    for count in kept_counts:
        front = ON_START + kept(count - 1)
        before = f"{count - 1} kept"
        add("draw, kept in front of all", before, front, sheet(of(b"a") + event(10, 1, 5)))
        add("draw, kept behind all", before, front, sheet(of(b"a") + event(2 * AHEAD, 1, 5)))
        add("draw, a repeat of the last kept id", before, front, sheet(of(b"a") + event(9, 9_998 + count)))
    for count in used_counts:
        front = ON_START + used(count - 1)
        before = f"{count - 1} used"
        add("draw, its id used in front of all", before, front, sheet(of(b"a") + event(0, 1)))
        add("draw, its id used behind all", before, front, sheet(of(b"a") + event(0, 9_999)))
        add("draw, a repeat of a used id", before, front, sheet(of(b"a") + event(0, 2)))
    for count in told_counts:
        add("play", f"{count} told", ON_START + kept(count), play(2 * AHEAD))
        add("seek", f"{count} told", ON_START + kept(count, None), seek(2 * AHEAD))
    return pairs
