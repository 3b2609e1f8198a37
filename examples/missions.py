#!/usr/bin/env python3
"""Writes the missions of this folder: NAME.log, what the robot's sensors say, and NAME.truth, where it truly was.

Each mission is made of a number, so that it can be made again: `examples/missions.py` writes all of them, byte for byte.
NAME.truth has a line 'SIGNAL TICK VALUE' for each signal and tick, and a line 'VARIABLE - VALUE' for each named variable. Where a mission
asks for loops, NAME.revisits has a line 'QUERY A B' for each pair of ticks at which the robot truly came back, and NAME.words the words. Where
it asks for the area, NAME.seen has lines 'QUERY Y X1 X2': the places of a lattice with this y and an x from X1 to X2 that were truly seen.
"""
import math
import os

HERE = os.path.dirname(os.path.abspath(__file__))


class Draws:
    """Numbers in a range, from a number: a linear congruential generator with 64 bits."""

    def __init__(self, number):
        self.state = number

    def draw(self, lo, hi):
        self.state = (self.state * 6364136223846793005 + 1442695040888963407) % 2**64
        return lo + (self.state >> 33) % (hi - lo + 1)


class Mission:
    """The lines of a log, and the truth behind them."""

    def __init__(self, name, ticks, width, title, version=1):
        self.name, self.ticks, self.version = name, ticks, version
        self.lines = ["# " + line for line in title] + [f"mission,{version},{ticks},{width}"]
        self.signals, self.variables, self.queries = {}, {}, []
        self.words, self.step = "loops", None

    def add(self, *fields):
        self.lines.append(",".join(str(field) for field in fields))

    def note(self, text):
        self.lines.append("# " + text)

    def signal(self, name, lo, hi, values):
        assert len(values) == self.ticks + 1 and all(lo <= value <= hi for value in values), name
        self.signals[name] = values
        self.add("signal", name, lo, hi)

    def variable(self, name, lo, hi, value):
        assert lo <= value <= hi, name
        self.variables[name] = value
        self.add("var", name, lo, hi)

    def beacon(self, name, x, y, error):
        self.variables[name + ".x"], self.variables[name + ".y"] = x, y
        self.add("beacon", name, x - error, x + error, y - error, y + error)

    def revisit(self, x, y, radius, gap):
        self.queries.append((x, y, radius, gap))
        self.add("revisit", x, y, radius, gap)

    def is_near(self, dx, dy, radius):
        """Whether two places are near: in each coordinate in version 1, by their distance in version 2."""
        return dx * dx + dy * dy <= radius * radius if self.version == 2 else max(abs(dx), abs(dy)) <= radius

    def revisits(self):
        """The pairs of ticks of each query at which the robot truly came back."""
        for number, (x, y, radius, gap) in enumerate(self.queries, 1):
            xs, ys = self.signals[x], self.signals[y]
            for a in range(self.ticks + 1):
                for b in range(a + gap, self.ticks + 1):
                    if self.is_near(xs[b] - xs[a], ys[b] - ys[a], radius):
                        yield number, a, b

    def ask_area(self, step):
        """Has the mission run for the area that is seen, over a lattice with a step."""
        self.words, self.step = f"area --step {step}", step

    def seen(self):
        """The runs of neighbouring places of each row of the lattice that the sensor of each query truly saw."""
        for number, (x, y, radius, _) in enumerate(self.queries, 1):
            path = list(zip(self.signals[x], self.signals[y]))
            for q in multiples(self.step, min(self.signals[y]) - radius, max(self.signals[y]) + radius):
                row = multiples(self.step, min(self.signals[x]) - radius, max(self.signals[x]) + radius)
                places = [p for p in row if any(self.is_near(px - p, py - q, radius) for px, py in path)]
                firsts = [p for p in places if p - self.step not in places]
                lasts = [p for p in places if p + self.step not in places]
                for run in zip(firsts, lasts):
                    yield number, q, *run

    def write(self):
        with open(os.path.join(HERE, self.name + ".log"), "w") as log:
            log.writelines(line + "\n" for line in self.lines)
        with open(os.path.join(HERE, self.name + ".truth"), "w") as truth:
            for name, values in self.signals.items():
                for tick, value in enumerate(values):
                    truth.write(f"{name} {tick} {value}\n")
            for name, value in self.variables.items():
                truth.write(f"{name} - {value}\n")
        if self.queries:
            kind, found = ("seen", self.seen()) if self.step else ("revisits", self.revisits())
            with open(os.path.join(HERE, f"{self.name}.{kind}"), "w") as file:
                file.writelines(" ".join(map(str, one)) + "\n" for one in found)
            with open(os.path.join(HERE, self.name + ".words"), "w") as words:
                words.write(self.words + "\n")


def walk(draws, ticks, every, speed, start=0):
    """Rates that change at every so many ticks, and the positions that follow: what a signal gains from a tick to the next."""
    rates, positions = [], [start]
    for tick in range(ticks + 1):
        rates.append(draws.draw(-speed, speed) if tick % every == 0 else rates[-1])
    for tick in range(ticks):
        positions.append(positions[-1] + rates[tick])
    return rates, positions


def multiples(step, lo, hi):
    """The multiples of a step from the one number to the other."""
    return range(-(-lo // step) * step, hi + 1, step)


def ring(x, y, bx, by, error):
    """Radii whose ring holds the distance, with an error of so much to either side."""
    distance = math.isqrt((x - bx) ** 2 + (y - by) ** 2)
    return max(0, distance - error), distance + 1 + error


def measured_rates(mission, name, rates, every, error):
    """A speed log: the rate of each stretch, measured with an error."""
    for first in range(0, mission.ticks + 1, every):
        last = min(first + every - 1, mission.ticks)
        mission.add("bound", name, first, last, rates[first] - error, rates[first] + error)


def moving(mission, draws, every, speed, reach, most, start):
    """A robot in the plane: places x and y within a reach, rates u and v up to a most, a start known to so much, and a speed log."""
    u, x = walk(draws, mission.ticks, every, speed)
    v, y = walk(draws, mission.ticks, every, speed)
    for name, values, bound in (("x", x, reach), ("y", y, reach), ("u", u, most), ("v", v, most)):
        mission.signal(name, -bound, bound, values)
    mission.add("deriv", "x", "u")
    mission.add("deriv", "y", "v")
    mission.add("at", "x", 0, -start, start)
    mission.add("at", "y", 0, -start, start)
    measured_rates(mission, "u", u, every, 1)
    measured_rates(mission, "v", v, every, 1)
    return x, y


def survey():
    """Five beacons at known places, and two hundred ranges at uncertain ticks."""
    draws = Draws(18)
    ticks, every = 1000, 50
    mission = Mission("survey", ticks, 10, ["A survey between five beacons: 200 ranges, each at a tick known to 2 to either side."])
    x, y = moving(mission, draws, every, 20, 50000, 25, 0)
    places = [(draws.draw(-9000, 9000), draws.draw(-9000, 9000)) for _ in range(5)]
    for number, (bx, by) in enumerate(places):
        mission.beacon(f"b{number}", bx, by, 2)
    for number in range(200):
        tick = 2 + 5 * number + draws.draw(-2, 2) if 0 < number < 199 else 2 + 5 * number
        bx, by = places[number % 5]
        near, far = ring(x[tick], y[tick], bx, by, 3)
        mission.add("ping", "x", "y", max(0, tick - 2), min(ticks, tick + 2), f"b{number % 5}", near, far)
    mission.write()


def passage():
    """Ranges to beacons that don't say who they are."""
    draws = Draws(12)
    ticks, every = 240, 40
    mission = Mission("unknown_beacon", ticks, 5, ["A passage along three beacons that answer without a name: each range is to one of them."])
    x, y = moving(mission, draws, every, 15, 8000, 20, 50)
    places = [(-900, 400), (700, -600), (300, 1500)]
    for name, (bx, by) in zip("pqr", places):
        mission.beacon(name, bx, by, 0)
    for tick in range(20, ticks, 20):
        bx, by = min(places, key=lambda place: (place[0] - x[tick]) ** 2 + (place[1] - y[tick]) ** 2)
        near, far = ring(x[tick], y[tick], bx, by, 4)
        mission.add("ping", "x", "y", tick, tick, "?", near, far)
    mission.write()


def depths():
    """Depths that were noted at ticks that are not known."""
    draws = Draws(9)
    ticks, every = 200, 25
    mission = Mission("depths", ticks, 5, ["Depths noted at uncertain ticks: a variable for the time and one for the depth, tied by 'eval'."])
    w, z = walk(draws, ticks, every, 12, 3000)
    mission.signal("depth", 0, 6000, z)
    mission.signal("w", -15, 15, w)
    mission.add("deriv", "depth", "w")
    measured_rates(mission, "w", w, every, 2)
    for number in range(1, 8):
        tick = 25 * number + draws.draw(-6, 6)
        mission.variable(f"t{number}", tick - draws.draw(0, 5), tick + draws.draw(0, 5), tick)
        mission.variable(f"d{number}", z[tick] - 5, z[tick] + 5, z[tick])
        mission.add("eval", "depth", f"t{number}", f"d{number}")
    mission.write()


def clocks():
    """Two logs of one robot, whose clocks differ by an unknown delay."""
    draws = Draws(10)
    ticks, every = 100, 20
    delay = 7
    mission = Mission("two_clocks", ticks, 4, ["Two recorders of one depth: the second one is late by a delay from 3 to 12 ticks, which is not known."])
    w, z = walk(draws, ticks, every, 30)
    late = [draws.draw(-40, 40) for _ in range(delay)] + z[: ticks + 1 - delay]
    mission.signal("first", -4000, 4000, z)
    mission.signal("second", -4000, 4000, late)
    mission.signal("w", -30, 30, w)
    mission.add("deriv", "first", "w")
    measured_rates(mission, "w", w, every, 1)
    mission.add("at", "first", 0, z[0], z[0])
    for tick in range(20, ticks + 1, 8):
        mission.add("at", "second", tick, late[tick] - 3, late[tick] + 3)
    mission.variable("d", 3, 12, delay)
    mission.add("delay", "first", "second", "d")
    mission.write()


def robots():
    """Two robots on one line that hear one another."""
    draws = Draws(7)
    ticks, every = 60, 15
    mission = Mission("two_robots", ticks, 3, ["Two robots that keep within 300 millimetres of one another, as a formula that holds at every tick says."])
    ua, ax = walk(draws, ticks, every, 10)
    va, ay = walk(draws, ticks, every, 10)
    bx = [value + draws.draw(-150, 150) for value in ax]
    by = [value + draws.draw(-150, 150) for value in ay]
    for name, values, bound in (("ax", ax, 2000), ("ay", ay, 2000), ("u", ua, 12), ("v", va, 12), ("bx", bx, 3000), ("by", by, 3000)):
        mission.signal(name, -bound, bound, values)
    mission.add("deriv", "ax", "u")
    mission.add("deriv", "ay", "v")
    mission.add("at", "ax", 0, 0, 0)
    mission.add("at", "ay", 0, 0, 0)
    measured_rates(mission, "u", ua, every, 1)
    measured_rates(mission, "v", va, every, 1)
    mission.add("expr", '"sqr(ax-bx)+sqr(ay-by)<=90000"')
    mission.add("bound", "bx", 30, 30, bx[30] - 10, bx[30] + 10)
    mission.write()


def late_fix():
    """A mission in sections: dead reckoning, then a fix at the end, then a range in the middle."""
    draws = Draws(15)
    ticks, every = 120, 30
    mission = Mission("late_fix", ticks, 10, ["A fix that arrives late narrows the past: each 'settle' ends a section of the report, and the next one goes on from it."])
    v, x = walk(draws, ticks, every, 20)
    mission.signal("x", -5000, 5000, x)
    mission.signal("v", -25, 25, v)
    mission.add("deriv", "x", "v")
    mission.add("at", "x", 0, 0, 0)
    measured_rates(mission, "v", v, every, 4)
    mission.add("settle")
    mission.note("The fix at the end.")
    mission.add("at", "x", ticks, x[ticks] - 5, x[ticks] + 5)
    mission.add("settle")
    mission.note("A measurement of the middle, found in the log of another instrument.")
    mission.variable("t", 58, 62, 60)
    mission.variable("z", x[60] - 20, x[60] + 20, x[60])
    mission.add("eval", "x", "t", "z")
    mission.write()


def legs(*parts):
    """Rates of a path of straight legs, each of so many ticks with one rate in x and one in y, and the places that follow."""
    u = [rate for count, rate, _ in parts for _ in range(count)]
    v = [rate for count, _, rate in parts for _ in range(count)]
    u, v = u + u[-1:], v + v[-1:]
    x, y = [0], [0]
    for tick in range(len(u) - 1):
        x.append(x[-1] + u[tick])
        y.append(y[-1] + v[tick])
    return u, v, x, y


def path(mission, parts, reach, error, every, draws):
    """A robot on straight legs whose rates are known, with a fix of its place at every so many ticks, wrong by an error at most."""
    u, v, x, y = legs(*parts)
    for name, values, bound in (("x", x, reach), ("y", y, reach), ("u", u, 20), ("v", v, 20)):
        mission.signal(name, -bound, bound, values)
    mission.add("deriv", "x", "u")
    mission.add("deriv", "y", "v")
    first = 0
    for count, rate_x, rate_y in parts:
        last = first + count - 1 if first + count < mission.ticks else mission.ticks
        mission.add("bound", "u", first, last, rate_x, rate_x)
        mission.add("bound", "v", first, last, rate_y, rate_y)
        first += count
    for tick in range(0, mission.ticks + 1, every):
        for name, values in (("x", x), ("y", y)):
            off = draws.draw(-1, 1)
            mission.add("at", name, tick, values[tick] + off - error, values[tick] + off + error)


def lawn_mower():
    """A survey in long legs, and then across them."""
    parts = [(16, 10, 0), (4, 0, 10), (16, -10, 0), (4, 0, 10), (16, 10, 0), (4, 0, 10), (2, -10, 0), (16, 0, -10), (5, -10, 0), (16, 0, 10), (5, -10, 0), (16, 0, -10)]
    ticks = sum(count for count, _, _ in parts)
    mission = Mission("lawn_mower", ticks, 1, ["A lawn-mower survey that then crosses its own legs: where did the robot come back to where it had been?"])
    path(mission, parts, 2000, 3, 8, Draws(21))
    mission.revisit("x", "y", 12, 12)
    mission.write()


def crossing():
    """Two legs that cross, known too badly for any one pair of ticks to be sure."""
    parts = [(8, 10, 0), (4, 0, -10), (4, -10, 0), (8, 0, 10)]
    ticks = sum(count for count, _, _ in parts)
    mission = Mission("crossing", ticks, 1, ["Two legs cross. No pair of ticks is surely near, yet the robot surely came back: its path turns round the crossing."], version=2)
    path(mission, parts, 200, 7, 1, Draws(17))
    mission.revisit("x", "y", 13, 8)
    mission.write()


def near_miss():
    """Two legs side by side, which may have touched."""
    parts = [(12, 10, 0), (3, 0, 10), (12, -10, 0)]
    ticks = sum(count for count, _, _ in parts)
    mission = Mission("near_miss", ticks, 1, ["Two legs side by side, 30 millimetres apart: they may have come within 20, and nothing says that they did."])
    path(mission, parts, 500, 9, 9, Draws(5))
    mission.revisit("x", "y", 20, 6)
    mission.write()


def missed_strip():
    """A survey in legs, of which one is left out."""
    parts = [(8, 20, 0), (3, 0, 20), (8, -20, 0), (6, 0, 20), (8, 20, 0)]
    ticks = sum(count for count, _, _ in parts)
    mission = Mission("missed_strip", ticks, 2, ["A lawn-mower survey with a leg left out: what did a sensor that sees 40 millimetres around surely see, and what not?"], version=2)
    path(mission, parts, 500, 3, 4, Draws(19))
    mission.revisit("x", "y", 40, 1)
    mission.ask_area(10)
    mission.write()


def pcg_words(seed, count):
    """Words of the generator PCG32 (XSH RR 64/32), whose seed of 16 bytes is made of a number by four words of another one."""
    def turned(state):
        word, turns = ((state >> 18 ^ state) >> 27) % 2**32, state >> 59
        return (word >> turns | word << 32 - turns) % 2**32

    bytes_of_seed = b""
    for _ in range(4):
        seed = (seed * 6364136223846793005 + 0xA17654E46FBE17F3) % 2**64
        bytes_of_seed += turned(seed).to_bytes(4, "little")
    add = int.from_bytes(bytes_of_seed[8:], "little") | 1
    state = ((int.from_bytes(bytes_of_seed[:8], "little") + add) * 6364136223846793005 + add) % 2**64
    for _ in range(count):
        yield turned(state)
        state = (state * 6364136223846793005 + add) % 2**64


def demo(seed):
    """What the mode 'demo' makes of a seed, made anew: its true course beside it. The program reads no log then."""
    words = pcg_words(seed, 40)
    mission = Mission(f"demo_{seed}", 2000, 10, [])
    rates = [(next(words) % 41 - 20, next(words) % 41 - 20) for _ in range(20)]
    u, v, x, y = legs(*((100, rate_x, rate_y) for rate_x, rate_y in rates))
    for name, values in (("x", x), ("y", y), ("u", u), ("v", v)):
        mission.signal(name, -50000, 50000, values)
    mission.revisit("x", "y", 200, 200)
    mission.lines, mission.words = [], f"demo --seed {seed}"
    mission.write()


def too_far():
    """A range that no robot of this speed can have measured."""
    mission = Mission("out_of_reach", 20, 5, ["No trajectory fits: the beacon is 5 metres away, the range at tick 20 says 100 millimetres, and the speed is at most 20 a tick."])
    mission.lines += ["signal,x,-9000,9000", "signal,y,-9000,9000", "signal,u,-20,20", "signal,v,-20,20", "deriv,x,u", "deriv,y,v",
                      "at,x,0,0,0", "at,y,0,0,0", "beacon,b,5000,5000,0,0", "ping,x,y,18,20,b,90,110"]
    with open(os.path.join(HERE, mission.name + ".log"), "w") as log:
        log.write("\n".join(mission.lines) + "\n")


if __name__ == "__main__":
    survey()
    passage()
    depths()
    clocks()
    robots()
    late_fix()
    lawn_mower()
    crossing()
    near_miss()
    missed_strip()
    demo(7)
    too_far()
