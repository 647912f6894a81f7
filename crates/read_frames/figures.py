"""The figures of the program's stdout, from the frames of src/table.rt, by Python's exact fractions."""
import pathlib
import re
from fractions import Fraction

GRAINS = {"O": 9_765_000, "N": 22_320_000, "P": 10_080_000}


def value(bits):
    """The exact value of an f32 that check 9 accepts, or None."""
    sign, field, digits = bits >> 31, bits >> 23 & 255, bits & 0x7FFFFF
    if field == 255:
        return None
    digits, exponent = (digits | 1 << 23, field) if field else (digits, 1)
    exact = Fraction(digits) * Fraction(2) ** (exponent - 150) * (-1) ** sign
    return exact if 0 <= exact < 256 else None


def answer(readings, kind, oxygen, saturation):
    """Number, four amounts in grains, and O2 in grains or a hyphen."""
    if saturation > 20_000_000:
        return "6 0 0 0 0 -"
    values = [value(bits) for bits in readings]
    air = value(oxygen) if kind != "Missing" else Fraction(0)
    if None in values or air is None:
        return "9 0 0 0 0 -"
    amounts = [v * 10**6 // 1 * GRAINS[e] for v, e in zip(values, "NNNP")]
    scaled = {"mass": air * 10**6, "percent": air * saturation / 100, "Missing": None}[kind]
    amounts.append("-" if scaled is None else scaled // 1 * GRAINS["O"])
    return " ".join(map(str, [0, *amounts]))


BITS = re.compile(r"let bits = \[(.*)\];")
ROW = re.compile(r"\(\s*(?:\[(0x[^]]*)\]|bits),\s*(?:Oxygen::)?(mass|percent|Missing)(?:\((\w+)\))?,\s*(\d+),?\s*\)")


def bits_of(text):
    """The bits of a list, or of one with four equal elements, [BITS; 4]."""
    each, _, times = text.partition("; ")
    return [int(bits, 16) for bits in each.split(", ")] * int(times or "1")


# A function's rows; where all have the same bits, these stand before.
for function in pathlib.Path(__file__).parent.joinpath("src/table.rt").read_text().split("pub(crate) fn")[1:]:
    shared = BITS.search(function)
    for bits, kind, oxygen, saturation in ROW.findall(function):
        print(answer(bits_of(bits or shared[1]), kind, int(oxygen or "0", 16), int(saturation)))
