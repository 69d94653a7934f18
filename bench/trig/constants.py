#!/usr/bin/env python3
"""Works out the constants of docs/TRIG.md that are not plain numbers, with Python's decimals at 100 digits, and prints each as f64 bits and
decimal. Then prints how far each series, with its constants rounded, is from what it stands for. Needs Debian's package python3."""
import struct
from decimal import Decimal, getcontext

getcontext().prec = 100
TINY = Decimal(10) ** -95


def bits(x):
    return "0x%016x" % struct.unpack("<Q", struct.pack("<d", x))[0]


def show(name, x):
    print(f"{name:12} {bits(float(x))}  {float(x)!r}")


def arctangent_of_one_over(n):
    total, power, k = Decimal(0), Decimal(1) / n, 0
    while power > TINY:
        total += (-power if k % 2 else power) / (2 * k + 1)
        power, k = power / (n * n), k + 1
    return total


PI = 4 * (4 * arctangent_of_one_over(5) - arctangent_of_one_over(239))  # Machin


def cosine(x):
    total, term, k = Decimal(0), Decimal(1), 0
    while abs(term) > TINY:
        total, k = total + term, k + 2
        term = -term * x * x / (k * (k - 1))
    return total


def sine_tail(z):
    """(sin y - y) / y^3 for z = y^2: -1/3! + z/5! - z^2/7! .."""
    total, term, k = Decimal(0), Decimal(-1) / 6, 3
    while abs(term) > TINY:
        total, k = total + term, k + 2
        term = -term * z / (k * (k - 1))
    return total


def arc_tail(z):
    """(arcsin y - y) / y^3 for z = y^2: the sum of (2k)! / (4^k k!^2 (2k + 1)) z^(k - 1) from k = 1 on"""
    total, factor, k = Decimal(0), Decimal(1) / 2, 1
    while factor > TINY:
        total += factor / (2 * k + 1)
        factor, k = factor * z * (2 * k + 1) / (2 * k + 2), k + 1
    return total


def through_chebyshev_nodes(f, end, n):
    """The coefficients, lowest first, of the polynomial of degree n - 1 that is f at the n Chebyshev nodes of 0 to end."""
    nodes = [end / 2 * (1 + cosine((2 * i + 1) * PI / (2 * n))) for i in range(n)]
    divided = [f(z) for z in nodes]
    for j in range(1, n):
        for i in range(n - 1, j - 1, -1):
            divided[i] = (divided[i] - divided[i - 1]) / (nodes[i] - nodes[i - j])
    coefficients = [Decimal(0)] * n
    for i in range(n - 1, -1, -1):
        for j in range(n - 1, 0, -1):
            coefficients[j] = coefficients[j - 1] - nodes[i] * coefficients[j]
        coefficients[0] = divided[i] - nodes[i] * coefficients[0]
    return coefficients


def largest_error(f, coefficients, end_of_y):
    worst = Decimal(0)
    for i in range(1, 1001):
        y = end_of_y * i / 1000
        z = y * y
        p = sum(Decimal(float(c)) * z**j for j, c in enumerate(coefficients))
        worst = max(worst, abs(y * z * (p - f(z))))
    return worst


high = Decimal(round(PI * 2**35)) / 2**35
show("1/pi", 1 / PI)
show("pi high", high)
show("pi low", PI - high)
show("pi/2", PI / 2)
show("pi", PI)
print(f"pi less its two parts: {PI - high - Decimal(float(PI - high)):.2e}")
for name, f, end, n, last in [("sine", sine_tail, (PI / 2) ** 2, 8, PI / 2), ("arc", arc_tail, Decimal("0.25"), 12, Decimal("0.5"))]:
    coefficients = through_chebyshev_nodes(f, end, n)
    for j, c in enumerate(coefficients):
        show(f"{name} {j}", c)
    print(f"{name} series, constants rounded, sums exact: at most {largest_error(f, coefficients, last):.2e} off")
