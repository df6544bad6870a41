#!/usr/bin/env python3
"""usage: log_gamma.py > crates/cases_log_gamma/stdout
       log_gamma.py --stdin > crates/cases_log_gamma/stdin
What `cases_log_gamma` must print, worked out apart from the Rattle code, and the arguments that it is fed. Below 8 it is the published algorithm (musl's
lgamma_r.c, with its tests on the bits of the argument, its cases for 1, 2 and tiny numbers and its product of the steps) in Python's own doubles; from 8 on
docs/ELEMENTARY.md's operations. The logarithm is that of elementary.py."""
import math, struct, sys

sys.dont_write_bytecode = True
from elementary import LN2_HI, LN2_LO, MASK, SPECIAL, double, ln, pattern, text

# by bits, as published: around 2, around the least value, around 1, from 2 to 3, from 8 on
A = [double(b) for b in (0x3FB3C467E37DB0C8, 0x3FD4A34CC4A60FAD, 0x3FB13E001A5562A7, 0x3F951322AC92547B, 0x3F7E404FB68FEFE8, 0x3F67ADD8CCB7926B,
                         0x3F538A94116F3F5D, 0x3F40B6C689B99C00, 0x3F2CF2ECED10E54D, 0x3F1C5088987DFB07, 0x3EFA7074428CFA52, 0x3F07858E90A45837)]
TC, TF, TT = double(0x3FF762D86356BE3F), double(0xBFBF19B9BCC38A42), double(0xBC50C7CAA48A971F)
T = [double(b) for b in (0x3FDEF72BC8EE38A2, 0xBFC2E4278DC6C509, 0x3FB08B4294D5419B, 0xBFA0C9A8DF35B713, 0x3F9266E7970AF9EC, 0xBF851F9FBA91EC6A,
                         0x3F78FCE0E370E344, 0xBF6E2EFFB3E914D7, 0x3F6282D32E15C915, 0xBF56FE8EBF2D1AF1, 0x3F4CDF0CEF61A8E9, 0xBF41A6109C73E0EC,
                         0x3F34AF6D6C0EBBF7, 0xBF347F24ECC38C38, 0x3F35FD3EE8C2D3F4)]
U = [double(b) for b in (0xBFB3C467E37DB0C8, 0x3FE4401E8B005DFF, 0x3FF7475CD119BD6F, 0x3FEF497644EA8450, 0x3FCD4EAEF6010924, 0x3F8B678BBF2BAB09)]
V = [1.0] + [double(b) for b in (0x4003A5D7C2BD619C, 0x40010725A42B18F5, 0x3FE89DFBE45050AF, 0x3FBAAE55D6537C88, 0x3F6A5ABB57D0CF61)]
S = [double(b) for b in (0xBFB3C467E37DB0C8, 0x3FCB848B36E20878, 0x3FD4D98F4F139F59, 0x3FC2BB9CBEE5F2F7, 0x3F9B481C7E939961, 0x3F5E26B67368F239, 0x3F00BFECDD17E945)]
R = [1.0] + [double(b) for b in (0x3FF645A762C4AB74, 0x3FE71A1893D3DCDC, 0x3FC601EDCCFBDF27, 0x3F9317EA742ED475, 0x3F497DDACA41A95B, 0x3EDEBAF7A5B38140)]
W = [double(b) for b in (0x3FDACFE390C97D69, 0x3FB555555555553B, 0xBF66C16C16B02E5C, 0x3F4A019F98CF38B6, 0xBF4380CB8C0FE741, 0x3F4B67BA4CDAD5D1, 0xBF5AB89D0B9E43E4)]


def horner(coefficients, x):
    """c0 + x (c1 + x (c2 + ..)), the last product first."""
    sum_ = coefficients[-1]
    for c in reversed(coefficients[:-1]):
        sum_ = c + x * sum_
    return sum_


def about_two(y):
    z = y * y
    return y * horner(A[0::2], z) + z * horner(A[1::2], z) - 0.5 * y


def about_least(y):
    z = y * y
    w = z * y
    p1, p2, p3 = (horner(T[i::3], w) for i in range(3))
    return TF + (z * p1 - (TT - w * (p2 + y * p3)))


def about_one(y):
    return -0.5 * y + y * horner(U, y) / horner(V, y)


def below_two(x, high):
    """The published cases below 2, by the upper 32 bits."""
    if high <= 0x3FECCCCC:
        r = -ln(x)
        if high >= 0x3FE76944:
            return r + about_two(1.0 - x)
        return r + (about_least(x - (TC - 1.0)) if high >= 0x3FCDA661 else about_one(x))
    if high >= 0x3FFBB4C3:
        return 0.0 + about_two(2.0 - x)
    return 0.0 + (about_least(x - TC) if high >= 0x3FF3B4C4 else about_one(x - 1.0))


def below_eight(x):
    """(y + 6) .. (y + 2) gamma(2 + y), the factors that the whole part of x asks for."""
    y = x - int(x)
    r = 0.5 * y + y * horner(S, y) / horner(R, y)
    z = 1.0
    for i in range(int(x) - 1, 1, -1):
        z *= y + i
    return r + ln(z) if x >= 3.0 else r


def from_eight(x):
    """(x - 1/2)(ln x - 1) and the series, with ln x = k ln 2 + ln m."""
    half, exponent = math.frexp(x)
    k, z, a = float(exponent - 1), 1.0 / x, x - 0.5
    w = W[0] + z * horner(W[1:], z * z)
    return a * (k * LN2_HI - 1.0) + (a * (ln(2.0 * half) + k * LN2_LO) + w)


def ln_gamma(x):
    high = pattern(x) >> 32
    if math.isnan(x) or x == math.inf:
        return x
    if x == 0.0:
        return math.inf
    if x < 0.0:
        return math.nan
    if x < 2.0**-70:
        return -ln(x)
    if x in (1.0, 2.0):
        return 0.0
    return below_two(x, high) if x < 2.0 else below_eight(x) if x < 8.0 else from_eight(x)


# ---- arguments

# where a branch begins, the least value, 1, 2 and the whole numbers up to 9; then where the published one for large numbers begins
ENDS = [0x3B90000000000000, 0x3FCDA66100000000, 0x3FE7694400000000, 0x3FECCCCD00000000, 0x3FF0000000000000, 0x3FF3B4C400000000, 0x3FF762D86356BE3F, 0x3FFBB4C300000000,
        *(pattern(float(n)) for n in range(2, 10)), 0x4330000000000000, 0x4390000000000000]
# 16 even parts of these are drawn from: the branches, and sizes up to where the value is past the largest double
RANGES = [(2.0**-70, 0.01), (0.01, 0.2316), (0.2316, 0.7316), (0.7316, 0.9), (0.9, 1.0), (1.0, 1.2316), (1.2316, 1.7316), (1.7316, 2.0), (2.0, 3.0), (3.0, 4.0), (4.0, 5.0), (5.0, 6.0),
          (6.0, 7.0), (7.0, 8.0), (8.0, 12.0), (12.0, 16.0), (16.0, 64.0), (64.0, 1e3), (1e3, 1e6), (1e6, 2.0**52), (2.0**52, 1e30), (1e300, 1e306)]


def even(low, high, count):
    """Numbers whose patterns are evenly spread from low to high: multiples of 2^64 over the golden ratio."""
    b, e = pattern(low), pattern(high)
    return [double(b + (i * 0x9E3779B97F4A7C15 & MASK) * (e - b) // 2**64) for i in range(1, count + 1)]


def fed():
    """The arguments of standard input, none of them +0."""
    yield from (double(b + d) for b in ENDS for d in range(-3, 4))
    yield from (s + sign * 2.0**-n for s in (1.0, 2.0) for n in range(2, 53) for sign in (1, -1))
    yield from (x for low, high in RANGES for x in even(low, high, 16))
    yield from (double(field << 52 | ((field + 1) * 0x9E3779B97F4A7C15 & (1 << 52) - 1)) for field in range(0, 2047, 11))
    yield from (float(n) for n in (10, 11, 20, 50, 100, 170, 171, 1000))
    yield from (-x for x in (0.5, 1.5, 2.5, 1e10))


def main():
    if sys.argv[1:2] == ["--stdin"]:
        for x in [*fed(), 0.0]:
            sys.stdout.buffer.write(struct.pack(">d", x))
        return
    for x in [*map(double, SPECIAL), *fed()]:
        print("at", text(x), text(ln_gamma(x)))


if __name__ == "__main__":
    main()
