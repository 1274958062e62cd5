#!/usr/bin/env python3
"""Makes bitvectors.txt: results of the SMT-LIB bit-vector operations by z3.

    apt-get install z3
    ./make.py > bitvectors.txt

The operands are drawn from a fixed seed, so the same z3 gives the same file.
"""

import random
import subprocess

SEED = 20260101
WIDTHS = range(1, 33)
OPERATIONS = {"add": "bvadd", "subtract": "bvsub", "multiply": "bvmul"}
DIVISIONS = {"quotient": "bvudiv", "remainder": "bvurem"}
# In the order of the relations' numbers, 0 to 9.
RELATIONS = {
    "=": "=",
    "!=": "distinct",
    "<u": "bvult",
    "<=u": "bvule",
    ">u": "bvugt",
    ">=u": "bvuge",
    "<s": "bvslt",
    "<=s": "bvsle",
    ">s": "bvsgt",
    ">=s": "bvsge",
}


def edges(width):
    """The ends of the unsigned and of the signed range, and their neighbours."""
    half, most = 1 << (width - 1), (1 << width) - 1
    return sorted({0, 1 & most, half - 1, half, (half + 1) & most, most - 1, most})


def pairs(rng, width, count):
    """Pairs of edges, of close neighbours and of anything."""
    most = (1 << width) - 1
    chosen = []
    for k in range(count):
        a = rng.choice(edges(width)) if k % 3 else rng.getrandbits(width)
        if k % 3 == 1:
            b = (a + rng.choice([-1, 0, 1])) & most
        elif k % 3 == 2:
            b = rng.choice(edges(width))
        else:
            b = rng.getrandbits(width)
        chosen.append((a, b))
    return list(dict.fromkeys(chosen))


def constant(value, width):
    return f"(_ bv{value} {width})"


def binary(name, width, a, b):
    smt = {**OPERATIONS, **DIVISIONS, **RELATIONS}[name]
    term = f"({smt} {constant(a, width)} {constant(b, width)})"
    return f"{name} {width} {a} {b}", term


def worked():
    """The examples of the bench section."""
    yield binary("add", 8, 200, 100)
    yield binary("subtract", 8, 0, 1)
    yield binary("multiply", 8, 16, 16)
    yield resize("sign-extend", 4, 8, 8)
    yield resize("cut", 9, 8, 500)
    yield binary("<s", 8, 128, 127)
    yield binary("<u", 8, 128, 127)


def operations(rng):
    for name in OPERATIONS:
        for width in WIDTHS:
            for a, b in pairs(rng, width, 12):
                yield binary(name, width, a, b)


def relations(rng):
    for name in RELATIONS:
        for width in WIDTHS:
            for a, b in pairs(rng, width, 6):
                yield binary(name, width, a, b)


def targets(rng, name, width):
    """Widths to go to from this one: the nearest, the farthest, any."""
    allowed = range(1, width) if name == "cut" else range(width + 1, 33)
    if not allowed:
        return []
    return sorted({allowed[0], allowed[-1], rng.choice(allowed)})


def resize(name, width, to, value):
    if name == "cut":
        change = f"(_ extract {to - 1} 0)"
    elif name == "zero-extend":
        change = f"(_ zero_extend {to - width})"
    else:
        change = f"(_ sign_extend {to - width})"
    return f"{name} {width} {to} {value}", f"({change} {constant(value, width)})"


def resizes(rng):
    for name in ["cut", "zero-extend", "sign-extend"]:
        for width in WIDTHS:
            for to in targets(rng, name, width):
                values = [rng.choice(edges(width)) for _ in range(3)]
                values.append(rng.getrandbits(width))
                for value in dict.fromkeys(values):
                    yield resize(name, width, to, value)


def division_pairs(rng, width):
    """Divisors 0 and 1, equal operands, a dividend below its divisor, and shorter divisors."""
    most = (1 << width) - 1
    divisor = rng.randint(1, most)
    chosen = [(a, b) for b in (0, 1) for a in (0, most, rng.getrandbits(width))]
    chosen += [(divisor, divisor), (rng.randrange(divisor), divisor), (most, most // 3 or 1)]
    for bits in (2, width // 3, width // 2, width - 1):
        chosen.append((rng.getrandbits(width), rng.getrandbits(bits) & most | 1))
    return list(dict.fromkeys(chosen + pairs(rng, width, 9)))


def divisions(rng):
    for name in DIVISIONS:
        for width in WIDTHS:
            for a, b in division_pairs(rng, width):
                yield binary(name, width, a, b)


def simplified(terms):
    """What z3 makes of each term, as a number; true is 1 and false is 0."""
    text = "".join(f"(simplify {term})\n" for term in terms)
    done = subprocess.run(["z3", "-in"], input=text, capture_output=True, text=True, check=True)
    numbers = [number(line) for line in done.stdout.split()]
    assert len(numbers) == len(terms)
    return numbers


def number(text):
    if text in ("true", "false"):
        return int(text == "true")
    digits, base = text[2:], {"#x": 16, "#b": 2}[text[:2]]
    return int(digits, base)


def main():
    rng = random.Random(SEED)
    # What was drawn first stays the same when more is drawn behind it.
    vectors = [*worked(), *operations(rng), *relations(rng), *resizes(rng), *divisions(rng)]
    version = subprocess.run(["z3", "--version"], capture_output=True, text=True, check=True)
    print("# Bit-vector results, made by make.py with " + version.stdout.strip() + ".")
    print("# OPERATION WIDTH A B RESULT, RELATION WIDTH A B 1 (holds) or 0,")
    print("# CHANGE FROM-WIDTH TO-WIDTH A RESULT; all numbers decimal.")
    for (line, _), result in zip(vectors, simplified([term for _, term in vectors])):
        print(line, result)


if __name__ == "__main__":
    main()
