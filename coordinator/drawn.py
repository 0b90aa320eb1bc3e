"""Demand that gives way to pressure (a sheet with a PD): what each hydrant asks, draws and lacks, and whether
what it draws fits the pressure beside it. The proved program decides whether all do; this says which do not. A
hydrant is a junction in service that asks for water. Flows are in cubic feet per second, pressures in feet."""
import math

from .network import is_hydrant

# the least range of pressure that the solver takes: the original's PDA_MIN_DIFF
LEAST_RANGE = 0.1
# a hydrant that lacks less than this part of what it asks counts as served
SERVED = 0.001


def pressure_range(pd):
    return max(pd["required"] - pd["minimum"], LEAST_RANGE)


def allowed(asked, pressure, pd):
    """What a pressure lets a hydrant draw."""
    share = (pressure - pd["minimum"]) / pressure_range(pd)
    return asked * math.sqrt(min(1.0, max(0.0, share)))


class Hydrant:
    def __init__(self, number, asked, drawn, allowed_here, tolerance):
        self.number, self.asked, self.drawn, self.allowed = number, asked, drawn, allowed_here
        self.fits = abs(drawn - allowed_here) <= tolerance
        self.lack = asked - drawn if asked - drawn > SERVED * asked else 0.0


def hydrants(nodes, drawn, pressures, pd, tolerance):
    """The hydrants by their numbers, in order. A drawn flow fits within `tolerance` of what its pressure allows."""
    return {i: Hydrant(i, node["demand"], drawn[i], allowed(node["demand"], pressures[i], pd), tolerance)
            for i, node in enumerate(nodes) if is_hydrant(node)}


def worst(found, how_bad):
    """The hydrant for which `how_bad` is greatest, of equal ones the lowest number."""
    return max(found, key=how_bad)
