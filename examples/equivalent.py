#!/usr/bin/env python3
"""Buses 101 and 205: bus 205 is taken out by a Kron reducer and by a Ward study, and each refuses a wrong call.

    cc -shared -Wl,--whole-archive crates/entries/out/libentries.a -Wl,--no-whole-archive -o libentries.so
    examples/equivalent.py ./libentries.so
"""
import ctypes, sys
from ctypes import POINTER, c_double, c_size_t, c_uint8, c_uint32

RECORD = 1296  # bytes
UNLIMITED = c_size_t(-1).value  # of row reductions
M = [1, 0, -1, 0, -1, 0, 2, 0]  # admittances in per unit, real then imaginary, row after row: 1, -1 / -1, 2
NUMBERS = [101, 205]  # the rows' buses, by the numbers on the drawing

MEANINGS = {
    1: "more than 256 buses, branches or elements of a list",
    2: "a slice is not of its exact length, or there is not a number for each row",
    3: "lists that belong together differ in length",
    4: "an REI equivalent of no bus",
    5: "a system of size 0, or a right side of another length",
    6: "a branch ends at a bus that is not there (here buses are rows, from 0)",
    7: "a Ward list names a bus that is none of the study's numbers",
    8: "two rows have one number, or a bus stands twice in the Ward lists",
    9: "the record is none that a making or a removal leaves",
    11: "the reducer has no such bus, or it was removed",
    12: "the bus's own admittance is too small to divide by",
    13: "a pivot is numerically nothing, below 1e-150 in size",
    18: "the work takes more row reductions than are allowed",
    19: "a number handed in is infinite or NaN",
    20: "a number computed is infinite or NaN",
}

# A slice is two arguments: its pointer and the count of its elements.
REALS, BUSES, BYTES = [POINTER(c_double), c_size_t], [POINTER(c_uint32), c_size_t], [POINTER(c_uint8), c_size_t]
ARGUMENTS = {
    "jeturipe_kron_new": [c_size_t, *REALS, *BUSES, *BYTES],
    "jeturipe_eliminate_bus": [*BYTES, *REALS, c_uint32],
    "jeturipe_active_buses": [*BYTES, *BUSES, POINTER(c_size_t)],
    "jeturipe_ward_compute": [c_size_t, *REALS, *4 * BUSES, c_double, *2 * REALS, c_size_t, *4 * REALS]
    + [POINTER(c_size_t), POINTER(c_size_t), POINTER(c_double), POINTER(c_size_t)],
}


class Refused(Exception):
    def __init__(self, number):
        super().__init__(f"refused with {number}: {MEANINGS.get(number, 'not a refusal of this library')}")
        self.number = number


def raise_refusal(number, entry, arguments):
    if number != 0:
        raise Refused(number)


def load(path):
    library = ctypes.CDLL(path)
    for name, types in ARGUMENTS.items():
        entry = getattr(library, name)
        entry.argtypes, entry.restype, entry.errcheck = types, c_uint32, raise_refusal
    return library


def array(kind, values):
    return (kind * len(values))(*values)


def slices(*arrays):
    return [argument for a in arrays for argument in (a, len(a))]


def remove_bus_205(library):
    y, rec, buses, count = array(c_double, M), (c_uint8 * RECORD)(), (c_uint32 * 2)(), c_size_t()
    library.jeturipe_kron_new(2, *slices(y, array(c_uint32, NUMBERS), rec))
    print("Bus 205 is removed:")
    library.jeturipe_eliminate_bus(*slices(rec, y), 205)
    library.jeturipe_active_buses(*slices(rec, buses), count)
    m = count.value
    for row, bus in enumerate(buses[:m]):
        own = 2 * (row * m + row)
        print(f"  bus {bus} is left, its admittance is {y[own]:g} + j{y[own + 1]:g} per unit")
    print("Bus 205 is removed again:")
    print_refusal(lambda: library.jeturipe_eliminate_bus(*slices(rec, y), 205))


def ward(library, boundary, external):
    """Of M: y_ward in per unit, p_ward in MW, q_ward in MVAr, the sizes before and after, the reduction ratio, and the rows reduced."""
    e, r = len(external), len(boundary)  # no bus is internal
    lists = [array(c_uint32, buses) for buses in (NUMBERS, [], external, boundary)]
    base, p_ext, q_ext = 100, array(c_double, [50]), array(c_double, [0])  # MVA, MW, MVAr
    left = [(c_double * count)() for count in (2 * r * r, r, r)]
    work = (c_double * (2 * e * (e + r + 1)))()
    summary = [c_size_t(), c_size_t(), c_double(), c_size_t()]
    inputs = *slices(array(c_double, M), *lists), base, *slices(p_ext, q_ext)
    library.jeturipe_ward_compute(2, *inputs, UNLIMITED, *slices(*left, work), *summary)
    return *left, *(answer.value for answer in summary)


def print_refusal(call):
    try:
        call()
    except Refused as refusal:
        print(f"  {refusal}")
    else:
        sys.exit("a call was carried out that should be refused")


def main(path):
    library = load(path)
    remove_bus_205(library)
    print("Ward study, boundary bus 101, external bus 205 with 50 MW and 0 MVAr, base 100 MVA:")
    y, p, q, original, size, ratio, reduced = ward(library, boundary=[101], external=[205])
    print(f"  admittance of bus 101: {y[0]:g} + j{y[1]:g} per unit")
    print(f"  fed in at bus 101: {p[0]:g} MW and {q[0]:g} MVAr")
    print(f"  {original} buses become {size}, reduction ratio {ratio:g}, rows reduced: {reduced}")
    print("The same study, its buses counted from 1, boundary bus 1, external bus 2:")
    print_refusal(lambda: ward(library, boundary=[1], external=[2]))


if __name__ == "__main__":
    main(*sys.argv[1:])
