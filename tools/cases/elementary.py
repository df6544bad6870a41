#!/usr/bin/env python3
"""usage: elementary.py > crates/cases_elementary/stdout
       elementary.py --stdin > crates/cases_elementary/stdin
What `cases_elementary` must print, worked out apart from the Rattle code, and the arguments that it is fed, which meet every row of both tables (rows.py). The square root is the nearest double, by Python's whole
numbers. The next four are the published algorithms (musl's exp.c, log.c, log1p.c and expm1.c, with their tests on the bits of the
argument) in Python's own doubles, ln_gamma is that of log_gamma.py, the normal distribution's three are those of normal.py; the two tables are read from the definitions, the arguments from the programs."""
import math, re, struct, sys
from pathlib import Path

sys.dont_write_bytecode = True
from rows import arguments

ROOT = Path(__file__).resolve().parents[2]
NAN = 0x7FF8000000000000
MASK = (1 << 64) - 1


def double(n):
    return struct.unpack(">d", struct.pack(">Q", n))[0]


def pattern(x):
    return struct.unpack(">Q", struct.pack(">d", x))[0]


def text(x):
    return "%016X" % (NAN if math.isnan(x) else pattern(x))


def sqrt(x):
    if math.isnan(x) or x < 0.0:
        return math.nan
    if x == 0.0 or math.isinf(x):
        return x
    top, bottom = x.as_integer_ratio()
    square = top * 4**1200 // bottom  # exact: the root is that of `square` over 2^1200
    root = math.isqrt(square)
    drop = root.bit_length() - 53
    q, low = root >> drop, root & (1 << drop) - 1
    half = 1 << drop - 1
    up = low > half or low == half and (root * root != square or q % 2 == 1)
    return math.ldexp(q + up, drop - 1200)


def numbers(path):
    """The hexadecimal numbers of a file's list."""
    with open(ROOT / path) as source:
        entries = source.read().split("table =\n" if path.endswith(".antt") else "= [", 1)[1].split("];", 1)[0]
    return [int(n.replace("_", ""), 16) for n in re.findall(r"0x([0-9a-f_]+)", entries)]


def exp_parts(x):
    """The pattern of the shifted k, and the reduced argument."""
    shifted = 128 * float.fromhex("0x1.71547652b82fep0") * x + float.fromhex("0x1.8p52")
    k = shifted - float.fromhex("0x1.8p52")
    return pattern(shifted), x + k * float.fromhex("-0x1.62e42fefa0000p-8") + k * float.fromhex("-0x1.cf79abc9e3b3ap-47")


def exp_from(x, bits, r):
    """The result, of these two."""
    scale = EXP_TABLE[2 * (bits % 128) + 1] + (bits << 45) & MASK
    c2, c3, c4, c5 = map(float.fromhex, ("0x1.ffffffffffdbdp-2", "0x1.555555555543cp-3", "0x1.55555cf172b91p-5", "0x1.1111167a4d017p-7"))
    square = r * r
    t = double(EXP_TABLE[2 * (bits % 128)]) + r + square * (c2 + r * c3) + square * square * (c4 + r * c5)
    if pattern(x) >> 52 & 0x7FF < 0x408:
        return double(scale) + double(scale) * t
    if bits & 0x80000000 == 0:
        s = double(scale - (1009 << 52) & MASK)
        return 2.0**1009 * (s + s * t)
    s = double(scale + (1022 << 52) & MASK)
    y = s + s * t
    if y < 1.0:
        low, high = s - y + s * t, 1.0 + y
        y = high + (1.0 - high + y + low) - 1.0
    return 2.0**-1022 * y


def exp(x):
    field = pattern(x) >> 52 & 0x7FF
    if field < 0x3C9:
        return 1.0 + x
    if field >= 0x409:
        return x if math.isnan(x) else 0.0 if x < 0.0 else math.inf
    return exp_from(x, *exp_parts(x))


def exp_two(x, low):
    """exp(x + low), low far below x: as ARM's `pow` has it (exp_inline), low is added to the reduced argument. normal.py uses it."""
    bits, r = exp_parts(x)
    return exp_from(x, bits, r + low)


A = [float.fromhex(h) for h in ("-0x1.0000000000001p-1", "0x1.555555551305bp-2", "-0x1.fffffffeb459p-3", "0x1.999b324f10111p-3", "-0x1.55575e506c89fp-3")]
B = [float.fromhex(h) for h in ("-0x1p-1", "0x1.5555555555577p-2", "-0x1.ffffffffffdcbp-3", "0x1.999999995dd0cp-3", "-0x1.55555556745a7p-3", "0x1.24924a344de3p-3",
                                "-0x1.fffffa4423d65p-4", "0x1.c7184282ad6cap-4", "-0x1.999eb43b068ffp-4", "0x1.78182f7afd085p-4", "-0x1.5521375d145cdp-4")]


def ln_near_one(r):
    r2 = r * r
    r3 = r * r2
    y = r3 * (B[1] + r * B[2] + r2 * B[3] + r3 * (B[4] + r * B[5] + r2 * B[6] + r3 * (B[7] + r * B[8] + r2 * B[9] + r3 * B[10])))
    w = r * 2.0**27
    upper = r + w - w
    lower = r - upper
    w = upper * upper * B[0]
    hi = r + w
    return y + (r - hi + w + B[0] * lower * (upper + r)) + hi


def ln(x):
    bits = pattern(x)
    if pattern(1.0 - 2.0**-4) <= bits < pattern(float.fromhex("0x1.109p0")):
        return 0.0 if x == 1.0 else ln_near_one(x - 1.0)
    if x == 0.0:
        return -math.inf
    if math.isnan(x) or x == math.inf:
        return x
    if x < 0.0:
        return math.nan
    if bits < 1 << 52:
        bits = pattern(x * 2.0**52) - (52 << 52)
    moved = bits - 0x3FE6000000000000
    i, k = (moved >> 45) % 128, moved >> 52
    inverse, log, upper, lower = map(double, LN_TABLE[4 * i:4 * i + 4])
    r = (double(bits - (k << 52)) - upper - lower) * inverse
    w = k * float.fromhex("0x1.62e42fefa3800p-1") + log
    hi = w + r
    lo = w - hi + r + k * float.fromhex("0x1.ef35793c76730p-45")
    r2 = r * r
    return lo + r2 * A[0] + r * r2 * (A[1] + r * A[2] + r2 * (A[3] + r * A[4])) + hi


LN2_HI, LN2_LO, INV_LN2 = double(0x3FE62E42FEE00000), double(0x3DEA39EF35793C76), double(0x3FF71547652B82FE)
Q = [double(b) for b in (0xBFA11111111110F4, 0x3F5A01A019FE5585, 0xBF14CE199EAADBB7, 0x3ED0CFCA86E65239, 0xBE8AFDB76E09C32D)]
LG = [double(b) for b in (0x3FE5555555555593, 0x3FD999999997FA04, 0x3FD2492494229359, 0x3FCC71C51D8E78AF, 0x3FC7466496CB03DE, 0x3FC39A09D078C69F, 0x3FC2F112DF3E5244)]


def exp_m1(x):
    high, sign = pattern(x) >> 32 & 0x7FFFFFFF, pattern(x) >> 63
    if high >= 0x4043687A:
        if math.isnan(x):
            return x
        if sign:
            return -1.0
        if x > double(0x40862E42FEFA39EF):
            return math.inf
    k, c = 0, 0.0
    if high > 0x3FD62E42:
        if high < 0x3FF0A2B2:
            k = -1 if sign else 1
            hi, lo = (x + LN2_HI, -LN2_LO) if sign else (x - LN2_HI, LN2_LO)
        else:
            k = int(INV_LN2 * x + (-0.5 if sign else 0.5))
            hi, lo = x - k * LN2_HI, k * LN2_LO
        x = hi - lo
        c = (hi - x) - lo
    elif high < 0x3C900000:
        return x
    h = 0.5 * x
    s = x * h
    p = 1.0 + s * (Q[0] + s * (Q[1] + s * (Q[2] + s * (Q[3] + s * Q[4]))))
    t = 3.0 - p * h
    e = s * ((p - t) / (6.0 - x * t))
    if k == 0:
        return x - (x * e - s)
    e = x * (e - c) - c - s
    if k == -1:
        return 0.5 * (x - e) - 0.5
    if k == 1:
        return -2.0 * (e - (x + 0.5)) if x < -0.25 else 1.0 + 2.0 * (x - e)
    if k == 1024:
        return (x - e + 1.0) * 2.0 * 2.0**1023 - 1.0
    if k < 0 or k > 56:
        return (x - e + 1.0) * 2.0**k - 1.0
    if k < 20:
        return (x - e + (1.0 - 2.0**-k)) * 2.0**k
    return (x - (e + 2.0**-k) + 1.0) * 2.0**k


def ln_1p(x):
    high = pattern(x) >> 32
    k, c, f = 1, 0.0, x
    if high < 0x3FDA827A or high >> 31:
        if high >= 0xBFF00000:
            return -math.inf if x == -1.0 else math.nan
        if high & 0x7FFFFFFF < 0x3CA00000:
            return x
        if high <= 0xBFD2BEC4:
            k = 0
    elif high >= 0x7FF00000:
        return x
    if k:
        u = 1.0 + x
        moved = (pattern(u) >> 32) + 0x3FF00000 - 0x3FE6A09E
        k = (moved >> 20) - 0x3FF
        if k < 54:
            c = (1.0 - (u - x) if k >= 2 else x - (u - 1.0)) / u
        moved = (moved & 0xFFFFF) + 0x3FE6A09E
        f = double(moved << 32 | pattern(u) & 0xFFFFFFFF) - 1.0
    h = 0.5 * f * f
    s = f / (2.0 + f)
    z = s * s
    w = z * z
    even = w * (LG[1] + w * (LG[3] + w * LG[5]))
    odd = z * (LG[0] + w * (LG[2] + w * (LG[4] + w * LG[6])))
    return s * (h + (odd + even)) + (k * LN2_LO + c) - h + f + k * LN2_HI


def line(x):
    from log_gamma import ln_gamma  # which takes its logarithm from here, as normal.py does
    from normal import norm_cdf, norm_pdf, norm_quantile
    print("at", *map(text, (x, sqrt(x), exp(x), ln(x), ln_1p(x), exp_m1(x), ln_gamma(x), norm_cdf(x), norm_pdf(x), norm_quantile(x))))


EXP_TABLE, LN_TABLE = numbers("crates/tabulated/specs/ExpTable.antt"), numbers("crates/tabulated/specs/LogTable.antt")
SPECIAL = numbers("crates/text/src/specials.rt")


def fed():
    """The arguments of standard input."""
    chosen, untold = arguments(exp, EXP_TABLE, ln, LN_TABLE)
    if any(untold):
        sys.exit(f"wrong entries that no argument tells: {untold}")
    return chosen


def printed():
    """All the arguments, in their order."""
    yield from map(double, SPECIAL + numbers("crates/cases_elementary/src/main.rt"))
    for low, count in [(0, 2047), (963, 121), (1013, 20)]:
        for i in range(1, 201):
            w = i * 0x9E3779B97F4A7C15 & MASK
            field = low + (w >> 52) % 2048 % count
            yield double(w >> 63 << 63 | field << 52 | w & (1 << 52) - 1)
    yield from fed()


def main():
    if sys.argv[1:2] == ["--stdin"]:
        for x in [*fed(), 0.0]:
            sys.stdout.buffer.write(struct.pack(">d", x))
        return
    for x in printed():
        line(x)


if __name__ == "__main__":
    main()
