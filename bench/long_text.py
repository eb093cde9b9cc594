#!/usr/bin/env python3
"""Prints a text of exactly so many bytes, 16,777,216 where no number is given behind that of the variables:
variables with annotations, constraints of a thousand terms, and long annotations.

    bench/long_text.py VARIABLES [BYTES]
"""
import sys

LIMIT = 16_777_216
TERMS = 1_000
CONSTRAINTS = 900


def declaration(number):
    return f'var 0..1: x{number} :: output_var :: note("variable {number}", [1..3, {{2, 4}}, 0.5]);\n'


def constraint(number, variables):
    first = number * 7 % (variables - TERMS)
    coefficients = ",".join(str(place % 19 - 9) for place in range(TERMS))
    names = ",".join(f"x{first + place + 1}" for place in range(TERMS))
    return f"constraint int_lin_le([{coefficients}],[{names}],1000) :: domain;\n"


def annotation(room):
    """A note of calls in lists that takes so many bytes."""
    head, tail = " :: note([", "0])"
    entry = "[f(1, 2.5), g(x1, {3})], "
    count = (room - len(head) - len(tail)) // len(entry)
    text = head + entry * count
    return text + " " * (room - len(text) - len(tail)) + tail


def main():
    variables = int(sys.argv[1])
    size = int(sys.argv[2]) if len(sys.argv) > 2 else LIMIT
    parts = [declaration(number) for number in range(1, variables + 1)]
    parts += [constraint(number, variables) for number in range(CONSTRAINTS)]
    text = "".join(parts)
    head, tail = "solve", " minimize x1;\n"
    sys.stdout.write(text + head + annotation(size - len(text) - len(head) - len(tail)) + tail)


main()
