#!/usr/bin/env python3
"""Writes harbour.csv, what the sensors of a robot measured in seconds and metres, and harbour.truth, its rounded positions at whole ticks.

The robot moves on straight legs that begin and end between two ticks, at positions between two millimetres. Times, fixes, depths, speeds and
ranges are wrong, many of them by all of their error. examples/from_measurements makes harbour.log of harbour.csv.
"""
import math
import os
from fractions import Fraction

from missions import HERE, Draws

TICK, LAST = Fraction(1, 2), 240
START = Fraction("3.2174"), Fraction("-1.0833"), Fraction("0.4506")
# Each leg: until when it goes, in seconds, and its speed in x, y and z.
LEGS = [("21.37", "1.203", "0.117", "0.31"), ("35.82", "0.094", "1.318", "0.052"), ("61.49", "-1.127", "0.233", "-0.021"),
        ("78.16", "-0.318", "-1.052", "0.013"), ("104.93", "1.274", "0.041", "-0.132"), ("120", "0.731", "0.948", "-0.117")]
# Each beacon: its place, the depth where ranges to it are in space, and the error of all.
BEACONS = {"pier": ("-12.25", "31.4", None, "0.02"), "buoy": ("24.018", "12.0005", "1.5", "0.05"), "rock": ("8.5", "-14.125", "9.75", "0")}


def decimal(number, places=4):
    """A number that has at most so many decimals, as text."""
    whole = number * 10**places
    assert whole.denominator == 1
    text = f"{abs(int(whole)):0{places + 1}d}"
    return ("-" if number < 0 else "") + f"{text[:-places]}.{text[-places:]}".rstrip("0").rstrip(".")


def place(time):
    """Where the robot is at a time, exactly."""
    here, begun = list(START), Fraction(0)
    for until, *speeds in LEGS:
        spent = min(time, Fraction(until)) - begun
        if spent > 0:
            here = [axis + spent * Fraction(speed) for axis, speed in zip(here, speeds)]
        begun = Fraction(until)
    return here


def nearest(number):
    return math.floor(number + Fraction(1, 2))


class Survey:
    """The lines of the measurements, and the truth behind them."""

    def __init__(self):
        self.draws, self.lines, self.variables = Draws(23), [], {}
        self.places = [[nearest(1000 * axis) for axis in place(tick * TICK)] for tick in range(LAST + 1)]

    def add(self, kind, name="", time="", until="", time_error="", x="", y="", z="", value="", error=""):
        self.lines.append(",".join((kind, name, time, until, time_error, x, y, z, value, error)))

    def off(self, error):
        """What a measurement is wrong by: in two of three cases by all of its error."""
        return Fraction(error) * (self.draws.draw(-1, 1) or Fraction(self.draws.draw(-10, 10), 10))

    def measured(self, true, error):
        """A value with at most six decimals that is wrong by an error at most."""
        return decimal(true + self.off(error), 8)

    def moment(self, time, error):
        """A time as it was measured; the true one is told to the variable of the line."""
        self.variables[f"time_{len(self.lines) + 1}"] = nearest(time / TICK)
        return self.measured(time, error)

    def at_moment(self, time, axes):
        for axis in axes:
            self.variables[f"{axis}_{len(self.lines) + 1}"] = self.places[nearest(time / TICK)]["xyz".index(axis)]

    def frame(self):
        self.lines += ["# A harbour, surveyed for two minutes: every line says by how much it may be wrong, and many are wrong by just that.",
                       "kind,name,time,until,time_error,x,y,z,value,error"]
        self.add("clock", until="120", value="0.5")
        self.add("slices", value="2")
        self.add("lowest", x="-60", y="-60", z="0")
        self.add("highest", x="60", y="60", z="20")
        self.add("fastest", x="1.5", y="1.5", z="0.4")
        for name, (x, y, z, error) in BEACONS.items():
            true = [Fraction(axis) for axis in (x, y, z) if axis]
            if z:
                self.variables[f"depth_{len(self.lines) + 1}"] = nearest(1000 * true[2])
            self.variables[f"{name}.x"], self.variables[f"{name}.y"] = nearest(1000 * true[0]), nearest(1000 * true[1])
            self.add("beacon", name, **dict(zip("xyz", (self.measured(axis, error) for axis in true))), error=error)

    def speeds(self):
        begun = Fraction(0)
        for until, *speeds in LEGS:
            first, last = (max(Fraction(0), min(Fraction(120), time + self.off("0.03"))) for time in (begun, Fraction(until)))
            self.add("speed", time=decimal(first), until=decimal(last), time_error="0.03",
                     **dict(zip("xyz", (self.measured(Fraction(speed), "0.015") for speed in speeds))), error="0.015")
            begun = Fraction(until)

    def fix(self, time, error):
        x, y, _ = place(Fraction(time))
        self.at_moment(Fraction(time), "xy")
        self.add("fix", time=self.moment(Fraction(time), error), time_error=error, x=self.measured(x, "0.4"), y=self.measured(y, "0.4"), error="0.4")

    def depth(self, time):
        self.at_moment(time, "z")
        self.add("depth", time=self.moment(time, "0.2"), time_error="0.2", z=self.measured(place(time)[2], "0.05"), error="0.05")

    def range(self, name, time, time_error):
        axes = [place(time)[axis] - Fraction(BEACONS[name][axis]) for axis in range(3) if BEACONS[name][axis]]
        square, wrong = sum(axis * axis for axis in axes), self.off("0.06")
        true = Fraction(math.isqrt(math.floor(square * 10**8)), 10**4) + (Fraction(1, 10**4) if wrong < 0 else 0)
        measured = true + wrong
        assert max(0, measured - Fraction("0.06")) ** 2 <= square <= (measured + Fraction("0.06")) ** 2
        self.at_moment(time, "xyz")
        self.add("range", name, time=self.moment(time, time_error), time_error=time_error, value=decimal(measured), error="0.06")

    def write(self):
        with open(os.path.join(HERE, "harbour.csv"), "w") as measurements:
            measurements.writelines(line + "\n" for line in self.lines)
        with open(os.path.join(HERE, "harbour.truth"), "w") as truth:
            for number, axis in enumerate("xyz"):
                values = [here[number] for here in self.places]
                rates = [after - before for before, after in zip(values, values[1:])]
                for name, numbers in ((axis, values), ("rate_" + axis, rates + rates[-1:])):
                    truth.writelines(f"{name} {tick} {value}\n" for tick, value in enumerate(numbers))
            truth.writelines(f"{name} - {value}\n" for name, value in self.variables.items())


def main():
    survey = Survey()
    survey.frame()
    survey.speeds()
    survey.fix("0.5", "0")
    for number in range(1, 20):
        survey.depth(number * 6 + Fraction(survey.draws.draw(-20, 20), 10))
        for turn, name in enumerate(BEACONS):
            time = number * 6 + 2 * turn - 2 + Fraction(survey.draws.draw(-99, 99), 100)
            survey.range(name, time, "0" if number % 4 == 0 else "0.3")
    survey.fix("118.95", "0.7")
    survey.write()


if __name__ == "__main__":
    main()
