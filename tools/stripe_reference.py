#!/usr/bin/env python3
"""The report on a stripe, made another way than by the program, to compare with it.

Reads what the program `stripe` reads and prints what it should print. Nothing here goes by mixings or by tables:
- P+Q multiplies polynomials over bits, carry-less, and then divides by 0x11D from the top;
- RDP adds up the diagonals of a grid of 17 columns, the data from column 0 on and P at column 16;
- EVENODD adds up the diagonals of the data, and the diagonal that is not stored to each of them.

    tools/stripe_reference.py < INPUT            one report
    tools/stripe_reference.py --make CODE K SEED a stripe of random-looking data, as input
    tools/stripe_reference.py --cases            the reports on the stripes of the program `vectors`, one after the other
"""
import sys

BLOCK, PRIME, WIDTH = 512, 17, 32


def product(a, b):
    total = 0
    for bit in range(8):
        if b >> bit & 1:
            total ^= a << bit
    for bit in range(14, 7, -1):
        if total >> bit & 1:
            total ^= 0x11D << (bit - 8)
    return total


def xor(a, b):
    return bytes(x ^ y for x, y in zip(a, b))


def rows(block):
    return [block[r * WIDTH:(r + 1) * WIDTH] for r in range(PRIME - 1)] + [bytes(WIDTH)]


def diagonal(columns, d):
    """The ⊕ of the cells whose row and column add up to d, modulo the prime."""
    total = bytes(WIDTH)
    for j, column in columns.items():
        total = xor(total, rows(column)[(d - j) % PRIME])
    return total


def q_of(code, blocks, p):
    if code == 0:
        power, q = 1, bytes(BLOCK)
        for block in blocks:
            q = xor(q, bytes(product(power, b) for b in block))
            power = product(power, 2)
        return q
    columns = dict(enumerate(blocks))
    if code == 1:
        columns[PRIME - 1] = p
        adjuster = bytes(WIDTH)
    else:
        adjuster = diagonal(columns, PRIME - 1)
    return b''.join(xor(diagonal(columns, r), adjuster) for r in range(PRIME - 1))


def report(task):
    code, k = (int.from_bytes(task[i:i + 2], 'little') for i in (0, 2))
    if len(task) != 4 + BLOCK * k or code > 2 or not 1 <= k <= 16:
        return 'bad stripe\n'
    blocks = [task[4 + BLOCK * c:4 + BLOCK * (c + 1)] for c in range(k)]
    p = bytes(BLOCK)
    for block in blocks:
        p = xor(p, block)
    pairs = [(i, j) for i in range(k + 2) for j in range(i + 1, k + 2)]
    lines = ['P ' + p.hex(), 'Q ' + q_of(code, blocks, p).hex()]
    lines += [f'{i} {j} recovered' for i, j in pairs] + [str(len(pairs))]
    return ''.join(line + '\n' for line in lines)


def make(code, k, seed):
    """A stripe's input: each byte is the top byte of a 32-bit linear congruential generator's next state."""
    out, x = bytearray(code.to_bytes(2, 'little') + k.to_bytes(2, 'little')), seed
    for _ in range(BLOCK * k):
        x = (x * 1664525 + 1013904223) % 2 ** 32
        out.append(x >> 24)
    return bytes(out)


def cases():
    for code in (0, 1, 2):
        for k in (1, 2, 5, 16):
            yield make(code, k, 1000 * code + k)
    yield make(0, 17, 1)
    yield make(3, 2, 1)
    yield make(1, 2, 1)[:-1]
    yield make(1, 2, 1) + b'\0'
    yield make(2, 0, 1)
    yield b'\1\0\1'
    yield b''


if __name__ == '__main__':
    if sys.argv[1:2] == ['--make']:
        sys.stdout.buffer.write(make(*map(int, sys.argv[2:5])))
    elif sys.argv[1:2] == ['--cases']:
        sys.stdout.write(''.join(map(report, cases())))
    else:
        sys.stdout.write(report(sys.stdin.buffer.read()))
