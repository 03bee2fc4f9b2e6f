#!/usr/bin/env python3
"""Writes the example books of this folder, next to this script.

The format is described in docs/format.md. Every good book is put together record by record; every
damaged book has one mistake. README.md in this folder says what the reader answers.
"""

from pathlib import Path

SEND, RECEIVE = 0x21, 0x3F
NONE = 0xFFFF  # the upper end of an interval that has none
ANY = (0, NONE)  # the interval of a station that a link does not limit


def wide(number):
    """A 16-bit number, high byte first."""
    return number.to_bytes(2, "big")


def interval(lower, upper):
    return wide(lower) + wide(upper)


def constraint(first, second, lower, upper):
    return bytes([first, second]) + interval(lower, upper)


def chart(events, constraints=(), final=False):
    """A chart: its head, its events (station, kind, paired event), its constraints."""
    head = bytes([len(events), len(constraints), int(final)])
    return head + b"".join(map(bytes, events)) + b"".join(constraints)


def link(source, target, *intervals):
    """A link. Stations that are not named get the interval 0, none."""
    eight = intervals + (ANY,) * (8 - len(intervals))
    return bytes([source, target]) + b"".join(interval(*ends) for ends in eight)


def book(stations, charts, links=(), near=3, far=3):
    """A book whose first chart is chart 0."""
    mark = b"TCM" + wide(1)
    header = bytes([stations, len(charts), 0, len(links)]) + wide(near) + wide(far)
    return mark + header + b"".join(charts) + b"".join(links)


def changed(good, place, *values):
    """The book with other bytes from the place on, of the same length."""
    return good[:place] + bytes(values) + good[place + len(values) :]


FORTH = [(0, SEND, 1), (1, RECEIVE, 0)]  # a message from station 0 to station 1
BACK = [(1, SEND, 1), (0, RECEIVE, 0)]  # a message from station 1 to station 0
# Each station sends only after it has received what the other sends.
KNOT = [(0, RECEIVE, 3), (0, SEND, 2), (1, RECEIVE, 1), (1, SEND, 0)]

countdown = book(
    stations=2,
    charts=[
        chart(FORTH, [constraint(0, 1, 3, 3)]),
        chart(FORTH),
        chart(BACK, final=True),
    ],
    links=[
        link(0, 1, (2, 2), (1, 1)),
        link(1, 1, (2, 2), (1, 1)),
        link(1, 2, (0, 0), (0, 0)),
    ],
)
one_chart = [chart(FORTH, [constraint(0, 1, 1, 3)], final=True)]
one_message = book(stations=3, charts=one_chart)

# A message of exactly 1 tick, and a link that moves both stations on by as much.
circle = book(
    stations=2,
    charts=[chart(FORTH, [constraint(0, 1, 1, 1)])],
    links=[link(0, 0, (1, 1), (1, 1))],
)

BOOKS = {
    "countdown": countdown,
    # Near 2: the first chart cannot be dated.
    "countdown-near-2": changed(countdown, 9, *wide(2)),
    # Link 2 has 1..1 for station 1.
    "countdown-late": changed(countdown, 120, *interval(1, 1)),
    # Near, far and the constraint are 100: 102 classes of datable paths.
    "countdown-100": changed(countdown, 9, *wide(100), *wide(100))[:24]
    + interval(100, 100)
    + countdown[28:],
    "circle": circle,
    "one-message": one_message,
    "one-message-near-0": book(stations=3, charts=one_chart, near=0),
    # The last link lacks its last byte.
    "bad-01-cut": countdown[:-1],
    # The mark is XCM.
    "bad-02-mark": changed(countdown, 0, ord("X")),
    # The version is 2.
    "bad-02-version": changed(countdown, 3, 0, 2),
    # 9 stations.
    "bad-03-stations": changed(countdown, 5, 9),
    # Near 4, far 3: placed at far.
    "bad-03-near-above-far": changed(countdown, 9, 0, 4),
    # A chart of 3 events: a message, and a send that no receive is left for.
    "bad-03-events-odd": book(stations=2, charts=[chart(FORTH + [(0, SEND, 1)], final=True)]),
    # A byte after the last link.
    "bad-04-trailing": countdown + b"\0",
    # Event 1 is on station 3 of a book with stations 0 to 2.
    "bad-05-station": changed(one_message, 19, 3),
    # Event 1 of chart 1 is neither a send nor a receive.
    "bad-05-kind": changed(countdown, 35, 0x22),
    # Event 1 of chart 1 is paired with itself, so it is not the pair of event 0.
    "bad-05-pairing": changed(countdown, 36, 1),
    # The constraint leads from the receive back to its send.
    "bad-06-not-before": changed(countdown, 22, 1, 0),
    # The constraint's upper end is 10,001.
    "bad-07-constraint-interval": changed(countdown, 26, *wide(10_001)),
    # Link 0 has 2..1 for station 0.
    "bad-07-link-interval": changed(countdown, 50, 0, 1),
    # Every event of the chart comes before itself.
    "bad-08-cyclic": book(stations=2, charts=[chart(KNOT, final=True)]),
    # Link 2 leads to chart 3 of a book with charts 0 to 2.
    "bad-09-no-chart": changed(countdown, 115, 3),
    # Link 0 has 0..0 for station 2 of a book with stations 0 and 1.
    "bad-10-not-due": changed(countdown, 58, 0, 0),
}


def main():
    folder = Path(__file__).resolve().parent
    for name, content in BOOKS.items():
        (folder / f"{name}.book").write_bytes(content)
        print(f"{name}.book {len(content)}")


if __name__ == "__main__":
    main()
