#!/usr/bin/env python3
"""Writes crates/products/stdout, the table of products that the program `products` must print.

It shares nothing with the program: no table, no logarithm, no reduced shift. Each product is the plain product of the two
polynomials over bits, with no carries, and then its remainder by long division by x^8 + x^4 + x^3 + x^2 + 1 (0x11D), from the
top digit down. Line a has a x 0 .. a x 255 as two lower-case hexadecimal digits each, with nothing between them.
"""

from pathlib import Path

DIVISOR = 0x11D


def plain_product(a: int, b: int) -> int:
    """The product of two polynomials over bits, not reduced."""
    total = 0
    for place in range(8):
        if (b >> place) & 1:
            total ^= a << place
    return total


def remainder(polynomial: int) -> int:
    """What long division by the divisor leaves of a polynomial of degree at most 14."""
    for degree in range(14, 7, -1):
        if (polynomial >> degree) & 1:
            polynomial ^= DIVISOR << (degree - 8)
    return polynomial


def main() -> None:
    lines = ("".join(f"{remainder(plain_product(a, b)):02x}" for b in range(256)) for a in range(256))
    target = Path(__file__).resolve().parent.parent / "crates" / "products" / "stdout"
    target.write_text("".join(line + "\n" for line in lines), encoding="ascii")


if __name__ == "__main__":
    main()
