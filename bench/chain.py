#!/usr/bin/env python3
"""Prints a model of one free variable and a chain of so many that are each defined by the one before.

    bench/chain.py VARIABLES [backwards]

With the second word the chain is declared, and its constraints stand, from its end to its beginning.
"""
import sys


def main():
    variables = int(sys.argv[1])
    order = list(range(1, variables))
    if "backwards" in sys.argv:
        order.reverse()
    lines = ["var 0..1: x0 :: output_var;\n"]
    lines += [f"var int: x{number} :: is_defined_var;\n" for number in order]
    lines += [
        f"constraint int_lin_eq([1,-1],[x{number - 1},x{number}],0) :: defines_var(x{number});\n"
        for number in order
    ]
    lines.append(f"solve maximize x{variables - 1};\n")
    sys.stdout.write("".join(lines))


if __name__ == "__main__":
    main()
