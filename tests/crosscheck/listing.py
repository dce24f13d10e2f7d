#!/usr/bin/env python3
"""The listing by brute force, in plain Python and from documents 01 and 02 alone.

    python3 tests/crosscheck/listing.py FOLDER

prints what the program has to print for FOLDER/timetable.txt and FOLDER/queries.txt. It lists every connection, so it
is for small timetables. Not part of the gate: it is how the files examples/*/expected.txt were checked.
"""

import os
import re
import sys

NUMBER = "(0|[1-9][0-9]{0,3})"
EMPTY = "(|0|[1-9][0-9]{0,3})"
TIME = "(|[0-9]{2}:[0-9]{2})"
STATION = re.compile(",".join(["S"] + 3 * [NUMBER]).encode() + rb"\Z")
WALK = re.compile(",".join(["W"] + 4 * [NUMBER]).encode() + rb"\Z")
STOP = re.compile(",".join(["T"] + 3 * [NUMBER] + 2 * [TIME] + [EMPTY, NUMBER]).encode() + rb"\Z")
QUERY = re.compile(",".join(["Q"] + 3 * [NUMBER]).encode() + rb"\Z")
STORE_WORDS, ANSWER_WORDS = 32768, 16384
BOTH, BOARDING, DOWN = 0, 1, 2


class Refused(Exception):
    pass


def value(field):
    """The number of a field, the minute of a time, 2880 for a time out of range; None if it is empty."""
    if b":" in field:
        hours, minutes = map(int, field.split(b":"))
        return 60 * hours + minutes if hours < 48 and minutes < 60 else 2880
    return int(field) if field else None


def read(text):
    """Ways of changing as (from, to, minutes, penalty), the number of stations, and trips as lists of (station, arrive,
    depart, ride penalty, mark)."""
    if len(text) > 65536:
        raise Refused(1, 0)
    stations, walks, trips, ended = [], [], [], True
    lines = text.split(b"\n")
    for at, line in enumerate(lines[:-1] + ([lines[-1]] if lines[-1] else []), 1):
        station, walk, stop = STATION.match(line), WALK.match(line), STOP.match(line)
        if at == len(lines) or not (station or walk or stop):
            raise Refused(2, at)
        if station:
            number, minutes, points = map(int, station.groups())
            if minutes > 240 or not 1 <= points <= 1000:
                raise Refused(3, at)
            if trips or walks or number != len(stations) + 1:
                raise Refused(4, at)
            if number > 64:
                raise Refused(5, at)
            stations.append((number, number, minutes, points))
            continue
        if walk:
            start, end, minutes, points = map(int, walk.groups())
            if not 1 <= minutes <= 60 or not 1 <= points <= 1000:
                raise Refused(3, at)
            if trips or (walks and walks[-1][:2] >= (start, end)):
                raise Refused(4, at)
            if len(walks) == 256:
                raise Refused(5, at)
            if not (1 <= start <= len(stations) and 1 <= end <= len(stations)):
                raise Refused(6, at)
            walks.append((start, end, minutes, points))
            continue
        trip, number, place, arrive, depart, points, mark = map(value, stop.groups())
        if (arrive is None) != (number == 1) or (depart is None) != (points is None):
            raise Refused(2, at)
        if depart is None and number == 1:
            raise Refused(2, at)
        if (arrive or 0) > 2879 or (depart or 0) > 2879 or (points or 0) > 100 or mark not in (BOTH, BOARDING, DOWN):
            raise Refused(3, at)
        if (trip, number) != ((len(trips) + 1, 1) if ended else (len(trips), len(trips[-1]) + 1)):
            raise Refused(4, at)
        if trip > 256 or sum(map(len, trips)) == 2048:
            raise Refused(5, at)
        if not 1 <= place <= len(stations):
            raise Refused(6, at)
        if number > 1:
            before = trips[-1][-1]
            if place == before[0] or arrive <= before[2] or (depart is not None and depart < arrive):
                raise Refused(6, at)
        else:
            trips.append([])
        trips[-1].append((place, arrive, depart, points, mark))
        ended = depart is None
    if not stations or not ended:
        raise Refused(7, len(lines))
    # a walk from a station to itself goes first: the station's own values do not apply
    along = {walk[:2] for walk in walks}
    return [station for station in stations if station[:2] not in along] + walks, len(stations), trips


def rides_from(trips, station, minute):
    """Every ride as its numbers, where it ends, when, and for how many points: none uses a stop against its mark."""
    for t, stops in enumerate(trips):
        for board in range(len(stops) - 1):
            if stops[board][0] == station and stops[board][2] >= minute and stops[board][4] != DOWN:
                points = 0
                for alight in range(board + 1, len(stops)):
                    points += stops[alight - 1][3]
                    if stops[alight][4] != BOARDING:
                        yield (t + 1, board + 1, alight + 1), stops[alight][0], stops[alight][1], points


def connections(ways, trips, source, minute):
    """Every feasible connection as (rides, pattern, arrival, penalty); a pattern names where one alights and boards."""
    open_ends = [((), (source,), minute, 0)]
    while open_ends:
        rides, pattern, ready, points = open_ends.pop()
        for ride, place, arrive, more in rides_from(trips, pattern[-1], ready):
            found = rides + (ride,), pattern + (place,), arrive, points + more
            yield found
            for start, end, wait, extra in ways:
                if start == place:
                    open_ends.append((found[0], found[1] + (end,), arrive + wait, found[3] + extra))


def undominated(costs):
    best, least = [], None
    for minutes, points in sorted(set(costs)):
        if least is None or points < least:
            best.append((minutes, points))
            least = points
    return best


def store_words(ways, trips, source):
    """The words of the source's store. Only the minutes in which a trip leaves the source matter."""
    patterns = set()
    for minute in {s[2] for stops in trips for s in stops[:-1] if s[0] == source}:
        reached = {}
        for rides, pattern, arrive, points in connections(ways, trips, source, minute):
            reached.setdefault(pattern[-1], []).append(((arrive, points), pattern))
        for target, found in reached.items():
            best = set(undominated(cost for cost, _ in found))
            if target != source:
                patterns |= {pattern for cost, pattern in found if cost in best}
    nodes = {p[:k] for p in patterns for k in range(3, len(p), 2)}
    return 2 + 3 * len(nodes) + 2 * len(patterns)


def answer(ways, trips, start, to, minute):
    found = [c for c in connections(ways, trips, start, minute) if c[1][-1] == to]
    rows = []
    for cost in undominated((arrive, points) for _, _, arrive, points in found):
        tied = [rides for rides, _, arrive, points in found if (arrive, points) == cost]
        shown = min(tied, key=lambda r: (-trips[r[0][0] - 1][r[0][1] - 1][2], len(r), r))
        rows.append((cost[0] - minute, cost[1], shown))
    return rows


def listing(text, queries):
    try:
        ways, stations, trips = read(text)
    except Refused as refused:
        yield "X,%d,%d" % refused.args
        return
    stores = {}
    for line in queries.split(b"\n")[:-1]:
        query = QUERY.match(line)
        if not query:
            yield "N,2"
            continue
        start, to, minute = map(int, query.groups())
        asked = "%d,%d,%d" % (start, to, minute)
        if start == to or not (1 <= start <= stations and 1 <= to <= stations):
            yield "N,%s,11" % asked
            continue
        if minute > 2879:
            yield "N,%s,12" % asked
            continue
        if start not in stores:
            stores[start] = store_words(ways, trips, start)
        rows = answer(ways, trips, start, to, minute) if stores[start] <= STORE_WORDS else []
        if stores[start] > STORE_WORDS or sum(3 + 3 * len(r[2]) for r in rows) > ANSWER_WORDS:
            yield "N,%s,15" % asked
        elif not rows:
            yield "N,%s,14" % asked
        else:
            yield "Q,%s,%d" % (asked, len(rows))
            for duration, points, rides in rows:
                yield "C,%d,%d,%d" % (duration, points, len(rides))
                yield from ("R,%d,%d,%d" % ride for ride in rides)
    if queries.split(b"\n")[-1]:
        yield "N,2"


def main():
    folder = sys.argv[1]
    text, name = b"", os.path.join(folder, "timetable.txt")
    if os.path.exists(name):
        with open(name, "rb") as file:
            text = file.read()
    with open(os.path.join(folder, "queries.txt"), "rb") as file:
        for line in listing(text, file.read()):
            print(line)


main()
