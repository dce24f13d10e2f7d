#!/usr/bin/env python3
"""A cross-check of the definitions themselves.

This program lists connections by brute force on small random timetables, in plain Python and from documents 01 and 02,
and works out rows, stores, lines, calls, and what other stores hold, well made or not. It writes each answer as an
equation about the definitions in crates/*/specs and has the checker close every one by computation, in a scratch copy
of the crates. It proves nothing; it is how we see that the definitions say what we mean. Not part of the gate: stores
are computed from all 2,880 minutes.

    python3 tests/crosscheck/crosscheck.py [seed ..]

Without seeds it takes a handful in which every part of the rule for equal cost has something to settle, and rows and
stores hang on a walk from a station to itself that goes before the values of its S line.
"""

import os
import random
import re
import shutil
import subprocess
import sys
import tempfile

LAST_MINUTE = 2879
BOTH, BOARDING, DOWN = 0, 1, 2
CRATES = ["timetable", "lists", "results", "connections", "stores", "lines"]
SEEDS = [15, 41, 201, 274, 508, 1901]


def another_run(rnd, trip):
    """A trip over the same stops: later, overtaking, or in a tie with the first."""
    run = [list(stop) for stop in trip]
    kind = rnd.choice(["later", "overtaking", "tied", "equal"])
    shift = rnd.randint(0, 3) if kind in ("later", "overtaking") else 0
    for i, stop in enumerate(run):
        stop[1] += shift if i else 0
        stop[2] += shift if i + 1 < len(run) else 0
    if kind == "overtaking" and run[-1][1] > run[-2][2] + 1:
        run[-1][1] -= 1
    if kind == "tied":
        # leaves earlier and arrives together
        run[0][2] = max(0, run[0][2] - rnd.randint(1, 2))
    return run


def mark_some(rnd, trips):
    """Marks at some stops, mostly alike on trips over the same stops: another mark is another line."""
    kept = {}
    for trip in trips:
        marks = kept.setdefault(tuple((stop[0], stop[3]) for stop in trip),
                                [rnd.choice([BOTH, BOTH, BOTH, BOARDING, DOWN]) for _ in trip])
        for stop, mark in zip(trip, marks):
            stop.append(rnd.choice([BOTH, BOARDING, DOWN]) if rnd.random() < 0.1 else mark)


def some_walks(rnd, stations):
    """Walks as (from, to, minutes, penalty), rising; few or many, from a station to itself too."""
    share = rnd.choice([0, 0.1, 0.3])
    pairs = [(a, b) for a in range(1, stations + 1) for b in range(1, stations + 1) if rnd.random() < share]
    return [(a, b, rnd.randint(1, 5), rnd.randint(1, 3)) for a, b in pairs]


def random_timetable(seed):
    """Stations as (change minutes, change penalty); walks; trips as lists of [station, arrive, depart, ride penalty,
    mark]."""
    rnd = random.Random(seed)
    stations = [(rnd.randint(0, 4), rnd.randint(1, 3)) for _ in range(rnd.randint(3, 5))]
    trips = []
    for _ in range(rnd.randint(3, 6)):
        if trips and rnd.random() < 0.5:
            run = another_run(rnd, rnd.choice(trips))
            if run[-1][1] <= LAST_MINUTE:
                trips.append(run)
                continue
        minute = rnd.randint(0, 12) if rnd.random() < 0.9 else rnd.randint(2840, 2850)
        run, station, calls = [], 0, rnd.randint(2, 4)
        for i in range(calls):
            station = rnd.choice([s for s in range(1, len(stations) + 1) if s != station])
            leave = minute + rnd.randint(0, 2)
            last = i + 1 == calls
            run.append([station, minute if i else 0, 0 if last else leave, 0 if last else rnd.randint(0, 2)])
            minute = leave + rnd.randint(1, 4)
        trips.append(run)
    # of its own, so that the trips of a seed are those that they were
    mark_some(random.Random("marks %d" % seed), trips)
    return stations, some_walks(random.Random("walks %d" % seed), len(stations)), trips


class Planner:
    """Documents 01 and 02, by listing."""

    def __init__(self, stations, walks, trips):
        self.stations, self.trips = stations, trips
        # ways of changing: from, to, minutes, penalty; a walk from a station to itself goes before the station's own
        along = {walk[0] for walk in walks if walk[0] == walk[1]}
        own = [(number, number, *values) for number, values in enumerate(stations, 1) if number not in along]
        self.ways = own + walks
        self.ties = {"departure": 0, "rides": 0, "numbers": 0}
        self.rides = []
        for number, trip in enumerate(trips, 1):
            for i, board in enumerate(trip):
                for j in range(i + 1, len(trip)):
                    if board[4] == DOWN or trip[j][4] == BOARDING:
                        continue
                    self.rides.append(
                        dict(
                            shown=(number, i + 1, j + 1), start=board[0], end=trip[j][0], leave=board[2],
                            arrive=trip[j][1], penalty=sum(stop[3] for stop in trip[i:j])))

    def connections(self, here, minute, target, so_far=()):
        """Each as its rides, all but the first with the way of changing before it."""
        for ride in self.rides:
            if ride["start"] == here and ride["leave"] >= minute:
                connection = so_far + (ride,)
                if ride["end"] == target:
                    yield connection
                for way in self.ways:
                    if way[0] == ride["end"]:
                        before = so_far + (dict(ride, way=way),)
                        yield from self.connections(way[1], ride["arrive"] + way[2], target, before)

    def cost(self, connection, minute):
        changes = sum(ride["way"][3] for ride in connection[:-1])
        return connection[-1]["arrive"] - minute, sum(ride["penalty"] for ride in connection) + changes

    def pattern(self, source, connection):
        """The source, alighted and boarded at for each change, the target."""
        changes = [station for ride in connection[:-1] for station in ride["way"][:2]]
        return (source, *changes, connection[-1]["end"])

    def best_costs(self, connections, minute):
        costs = {self.cost(c, minute) for c in connections}
        return {x for x in costs if not any(y != x and y[0] <= x[0] and y[1] <= x[1] for y in costs)}

    def rows(self, connections, minute):
        rows = []
        for cost in sorted(self.best_costs(connections, minute)):
            tied = [c for c in connections if self.cost(c, minute) == cost]
            shown = min(tied, key=lambda c: (-c[0]["leave"], len(c), [ride["shown"] for ride in c]))
            latest = [c for c in tied if c[0]["leave"] == shown[0]["leave"]]
            fewest = [c for c in latest if len(c) == len(shown)]
            self.ties["departure"] += len(latest) < len(tied)
            self.ties["rides"] += len(fewest) < len(latest)
            self.ties["numbers"] += len(fewest) > 1
            rows.append([*cost, len(shown)] + [number for ride in shown for number in ride["shown"]])
        return rows

    def patterns(self, source):
        found = set()
        for target in range(1, len(self.stations) + 1):
            if target != source:
                every = list(self.connections(source, 0, target))
                for minute in range(LAST_MINUTE + 1):
                    now = [c for c in every if c[0]["leave"] >= minute]
                    best = self.best_costs(now, minute)
                    found |= {self.pattern(source, c) for c in now if self.cost(c, minute) in best}
        return found

    def words(self, source, patterns):
        nodes = {p[:i] for p in patterns for i in range(3, len(p), 2)}
        nodes = sorted(nodes, key=lambda node: (len(node), node))
        number = {(source,): 0, **{node: i for i, node in enumerate(nodes, 1)}}
        arcs = sorted((p[-1], number[p[:-1]]) for p in patterns)
        told = [(*node[-2:], number[node[:-2]]) for node in nodes] + arcs
        return [len(nodes), len(arcs)] + [word for entry in told for word in entry]

    def well_made(self, words):
        """Question 13, in the order of document 01."""
        if len(words) < 2 or len(words) < 2 + 3 * words[0] + 2 * words[1] or max(words[:2]) > 16383:
            return False
        nodes, arcs = entries(words)
        known = all(1 <= station <= len(self.stations) for entry in nodes + arcs for station in entry[:-1])
        below = all(node[-1] < number for number, node in enumerate(nodes, 1))
        if not known or not below or any(before > len(nodes) for _, before in arcs):
            return False
        rising = all(arc < another for arc, another in zip(arcs, arcs[1:]))
        return rising and all(len(pattern) // 2 <= 64 for pattern in self.read(0, words))

    def read(self, source, words):
        """The patterns of well-made words, each from the arc back to the root."""
        nodes, arcs = entries(words)
        found = []
        for target, before in arcs:
            pattern = [target]
            while before:
                *change, before = nodes[before - 1]
                pattern = change + pattern
            found.append(tuple([source] + pattern))
        return found

    def lines(self):
        lines = []
        for z in sorted(range(len(self.trips)), key=lambda z: (self.trips[z][0][2], z)):
            for line in lines:
                last, trip = self.trips[line[-1]], self.trips[z]
                if len(last) == len(trip) and all(
                        a[0] == b[0] and a[3:] == b[3:] and a[1] <= b[1] and a[2] <= b[2] for a, b in zip(last, trip)):
                    line.append(z)
                    break
            else:
                lines.append([z])
        return lines

    def calls(self, station):
        return [[i, p] for i, line in enumerate(self.lines(), 1)
                for p, stop in enumerate(self.trips[line[0]], 1) if stop[0] == station]


def entries(words):
    """The nodes, of three words, and the arcs, of two."""
    end = 2 + 3 * words[0]
    nodes = [tuple(words[i:i + 3]) for i in range(2, end, 3)]
    return nodes, [tuple(words[i:i + 2]) for i in range(end, end + 2 * words[1], 2)]


def other_store(rnd, planner, source):
    """A well-made store that no store call wrote: of any patterns, with nodes that are repeated or that no arc uses,
    arcs to the source, and words behind."""
    stations = range(1, len(planner.stations) + 1)
    every = {planner.pattern(source, c) for b in stations for c in planner.connections(source, 0, b)}
    nodes, arcs = [], set()
    for pattern in sorted(every):
        if rnd.random() < 0.7:
            before = 0
            for change in zip(pattern[1:-1:2], pattern[2:-1:2]):
                known = [i for i, node in enumerate(nodes, 1) if node == (*change, before)]
                if not known or rnd.random() < 0.3:
                    nodes.append((*change, before))
                    known.append(len(nodes))
                before = rnd.choice(known)
            arcs.add((pattern[-1], before))
        if rnd.random() < 0.2:
            nodes.append((rnd.choice(stations), rnd.choice(stations), rnd.randint(0, len(nodes))))
            nodes.append(rnd.choice(nodes))
    arcs |= {(source, rnd.randint(0, len(nodes))) for _ in range(2)}
    told = nodes + sorted(arcs)
    behind = [rnd.randint(0, 9) for _ in range(rnd.randint(0, 2))]
    return [len(nodes), len(arcs)] + [word for entry in told for word in entry] + behind


def spoilt(rnd, words):
    """The words with a few changed or left out: well made or not."""
    words = list(words)
    if rnd.random() < 0.3:
        return words[:rnd.randint(0, len(words) - 1)]
    i = rnd.randint(0, len(words) - 1)
    words[i] = rnd.choice([0, words[i] + 1, rnd.randint(0, len(words)), 65535])
    return words


def numbers(row):
    return " ∷ ".join([str(x) for x in row] + ["[]"])


def table(rows):
    return " ∷ ".join(["(%s)" % numbers(row) for row in rows] + ["[]"])


STOP = "record { station = %d; arrive = %d; depart = %d; points = %d; mark = %d }"


WALK = "record { from = %d; to = %d; minutes = %d; points = %d }"


def as_timetable(stations, walks, trips):
    listed = " ∷ ".join(["station %d %d" % s for s in stations] + ["[]"])
    stops = [[STOP % tuple(s) for s in trip] for trip in trips]
    runs = " ∷ ".join(["(%s)" % " ∷ ".join(trip + ["[]"]) for trip in stops] + ["[]"])
    on_foot = " ∷ ".join([WALK % walk for walk in walks] + ["[]"])
    parts = (listed, on_foot, numbers(range(1, len(trips) + 1)), runs)
    return "record { stations = %s; walks = %s; numbers = %s; trips = %s }" % parts


IMPORTS = """-- Written by the cross-check; each equation was worked out by listing.
use Rattle.std.specs.Prelude.{◌≡◌, refl, true, false, List, [], ◌∷◌}
use Rattle.timetable.specs.Timetable.{Timetable, valid_station, listed, leaves, ends, follows, runs}
use Rattle.timetable.specs.Timetable.{valid_trip, valid_stations, valid_trips, counted, climb, numbered, valid}
use Rattle.timetable.specs.Timetable.{valid_walk, walk_before, valid_walks}
use Rattle.results.specs.Results.{dominates, equal, entries, result}
use Rattle.connections.specs.Rides.{ride_points, may_board, may_alight, rides_of}
use Rattle.connections.specs.Connections.{net, changes_of}
use Rattle.connections.specs.Planner.{connections, planner_list, tie_key, rows_of}
use Rattle.timetable.specs.Worked.{station}
use Rattle.connections.specs.Worked.{planned}
use Rattle.stores.specs.Stored.{optimals, optimal_stations, stored}
use Rattle.stores.specs.Words.{nodes, arcs, encode, store_words, readable, well_made, kept_list, answer}
use Rattle.lines.specs.Lines.{in_order, lines, line_numbers, calls}
use Rattle.lines.specs.DirectRides.{directs, direct_rows}
"""

OPENED = """valid_station listed leaves ends follows runs valid_trip valid_stations valid_trips counted climb
    numbered valid dominates equal entries result ride_points rides_of changes_of connections planner_list tie_key
    rows_of optimals optimal_stations stored nodes arcs encode store_words readable well_made kept_list answer
    in_order lines calls directs direct_rows may_board may_alight valid_walk walk_before valid_walks"""


def equations(seed):
    """What is claimed of one timetable: pairs of a definition's call and the value worked out by listing."""
    rnd = random.Random(-seed)
    stations, walks, trips = random_timetable(seed)
    planner, name = Planner(stations, walks, trips), "G%d" % seed
    minutes = [1, rnd.randint(2, 12)]
    claims = [("valid %s" % name, "true"),
              ("line_numbers %s" % name, table([[z + 1 for z in line] for line in planner.lines()]))]
    for a in range(1, len(stations) + 1):
        claims.append(("calls %s.trips %d" % (name, a), table(planner.calls(a))))
        for b in range(1, len(stations) + 1):
            for m in minutes if a != b else []:
                every = list(planner.connections(a, m, b))
                single = [c for c in every if len(c) == 1]
                claims.append(("planned %s %d %d %d" % (name, a, m, b), table(planner.rows(every, m))))
                claims.append(("direct_rows (net %s) %d %d %d" % (name, a, m, b), table(planner.rows(single, m))))
    source = rnd.randint(1, len(stations))
    patterns = planner.patterns(source)
    claims.append(("store_words (net %s) %d" % (name, source), numbers(planner.words(source, patterns))))
    # a store with sequences struck
    left = {p for p in patterns if rnd.random() < 0.6}
    words = numbers(planner.words(source, left))
    claims.append(("well_made %d (%s)" % (len(stations), words), "true"))
    for b in range(1, len(stations) + 1):
        if b != source:
            kept = [c for c in planner.connections(source, minutes[0], b) if planner.pattern(source, c) in left]
            claims.append(("answer (net %s) (%s) %d %d %d" % (name, words, source, minutes[0], b),
                           table(planner.rows(kept, minutes[0]))))
    # stores that no store call wrote, and ill-made words
    for a in range(1, len(stations) + 1):
        words = other_store(rnd, planner, a)
        assert planner.well_made(words)
        held = planner.read(a, words)
        for b in range(1, len(stations) + 1):
            if b != a:
                kept = [c for c in planner.connections(a, minutes[0], b) if planner.pattern(a, c) in held]
                claims.append(("answer (net %s) (%s) %d %d %d" % (name, numbers(words), a, minutes[0], b),
                               table(planner.rows(kept, minutes[0]))))
        for lent in [words] + [spoilt(rnd, words) for _ in range(4)]:
            made = "true" if planner.well_made(lent) else "false"
            claims.append(("well_made %d (%s)" % (len(stations), numbers(lent)), made))
    return name, as_timetable(stations, walks, trips), claims, planner.ties


def rests_on(root, wanted):
    """The lines of crates.txt for these crates and all that they rest on, in its order."""
    with open(os.path.join(root, "crates.txt")) as file:
        listed = [line for line in file if line.strip() and not line.startswith("#")]
    below = {line.split(":")[0].strip(): line.split(":")[1].split() for line in listed}
    needed, todo = set(), list(wanted)
    while todo:
        crate = todo.pop()
        if crate not in needed:
            needed.add(crate)
            todo += below[crate]
    return [line for line in listed if line.split(":")[0].strip() in needed]


def main():
    seeds = [int(word) for word in sys.argv[1:]] or SEEDS
    root = os.path.dirname(os.path.dirname(os.path.dirname(os.path.abspath(__file__))))
    if shutil.which("rt") is None:
        sys.exit("crosscheck: the toolchain's rt is not on PATH")
    text, where, ties = [IMPORTS], {}, {}
    for seed in seeds:
        name, timetable, claims, settled = equations(seed)
        ties = {rule: ties.get(rule, 0) + n for rule, n in settled.items()}
        text.append("%s : Timetable\n%s = %s\n" % (name, name, timetable))
        for i, (call, value) in enumerate(claims):
            equation = "%s-%d : %s ≡ %s\nunfolding %s %s\n%s-%d = refl\n"
            text.append(equation % (name, i, call, value, name, OPENED, name, i))
            where["%s-%d" % (name, i)] = (call, value)
    with tempfile.TemporaryDirectory() as scratch:
        kept = rests_on(root, CRATES)
        names = [line.split(":")[0].strip() for line in kept]
        for crate in names:
            shutil.copytree(os.path.join(root, "crates", crate), os.path.join(scratch, "crates", crate))
        with open(os.path.join(scratch, "crates.txt"), "w") as listed:
            listed.writelines(kept + ["equations: %s\n" % " ".join(names)])
        os.makedirs(os.path.join(scratch, "crates", "equations", "src"))
        os.makedirs(os.path.join(scratch, "crates", "equations", "specs"))
        files = {
            "src/lib.rt": "//! The cross-check's equations.\n#![tactic(auto)]\n",
            "specs/Lib.antt": "pub mod Equations\n",
            "specs/Equations.antt": "\n".join(text),
        }
        for path, content in files.items():
            with open(os.path.join(scratch, "crates", "equations", path), "w") as file:
                file.write(content)
        folder = os.path.join(scratch, "crates", "equations")
        run = subprocess.run(["rt", "check"], cwd=folder, capture_output=True, text=True)
    said = run.stdout + run.stderr
    wrong = sorted(set(re.findall(r"error: `(G\d+-\d+)`", said)))
    for name in wrong:
        print("not closed: %s ≡ %s" % where[name])
    if run.returncode != 0 and not wrong:
        print(said[-3000:])
    rows = sum(value.count("(") for _, value in where.values())
    print("crosscheck: %d timetables, %d equations, %d rows; ties settled by departure %d, rides %d, numbers %d"
          % (len(seeds), len(where), rows, ties["departure"], ties["rides"], ties["numbers"]))
    verdict = "AGREED" if run.returncode == 0 else "NOT AGREED"
    print("crosscheck: %d not closed by the checker: %s" % (len(wrong), verdict))
    sys.exit(run.returncode)


if __name__ == "__main__":
    main()
