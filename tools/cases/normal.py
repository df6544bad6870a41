#!/usr/bin/env python3
"""usage: normal.py > crates/cases_normal/stdout
       normal.py --stdin > crates/cases_normal/stdin
What `cases_normal` must print, worked out apart from the Rattle code, and the arguments that it is fed: the operations of docs/ELEMENTARY.md in Python's own
doubles, without the guards. The exponential of two parts, the logarithm and the square root are those of elementary.py."""
import math, struct, sys

sys.dont_write_bytecode = True
from elementary import MASK, SPECIAL, double, exp_two, ln, pattern, sqrt, text

# by bits, as published by fdlibm: erf up to 0.84375, around 1, the exponent of erfc up to 1/0.35 and beyond; Q and S with the 1 that they begin with
PP = [double(b) for b in (0x3FC06EBA8214DB68, 0xBFD4CD7D691CB913, 0xBF9D2A51DBD7194F, 0xBF77A291236668E4, 0xBEF8EAD6120016AC)]
QQ = [1.0] + [double(b) for b in (0x3FD97779CDDADC09, 0x3FB0A54C5536CEBA, 0x3F74D022C4D36B0F, 0x3F215DC9221C1A10, 0xBED09C4342A26120)]
PA = [double(b) for b in (0xBF6359B8BEF77538, 0x3FDA8D00AD92B34D, 0xBFD7D240FBB8C3F1, 0x3FD45FCA805120E4, 0xBFBC63983D3E28EC, 0x3FA22A36599795EB, 0xBF61BF380A96073F)]
QA = [double(b) for b in (0x3FBB3E6618EEE323, 0x3FE14AF092EB6F33, 0x3FB2635CD99FE9A7, 0x3FC02660E763351F, 0x3F8BEDC26B51DD1C, 0x3F888B545735151D)]
RA = [double(b) for b in (0xBF843412600D6435, 0xBFE63416E4BA7360, 0xC0251E0441B0E726, 0xC04F300AE4CBA38D, 0xC0644CB184282266, 0xC067135CEBCCABB2, 0xC054526557E4D2F2,
                          0xC023A0EFC69AC25C)]
SA = [1.0] + [double(b) for b in (0x4033A6B9BD707687, 0x4061350C526AE721, 0x407B290DD58A1A71, 0x40842B1921EC2868, 0x407AD02157700314, 0x405B28A3EE48AE2C,
                                  0x401A47EF8E484A93, 0xBFAEEFF2EE749A62)]
RB = [double(b) for b in (0xBF84341239E86F4A, 0xBFE993BA70C285DE, 0xC031C209555F995A, 0xC064145D43C5ED98, 0xC083EC881375F228, 0xC09004616A2E5992, 0xC07E384E9BDC383F)]
SB = [1.0] + [double(b) for b in (0x403E568B261D5190, 0x40745CAE221B9F0A, 0x409802EB189D5118, 0x40A8FFB7688C246A, 0x40A3F219CEDF3BE6, 0x407DA874E79FE763,
                                  0xC03670E242712D62)]
# as published by Cephes, the highest power first, Q with the 1 that is not stored there: the middle, sqrt(-2 ln t) from 2 to 8, from 8 on
P = [[double(b) for b in row] for row in (
    (0xC04DFB4F0E5E142D, 0x405880119EA1EDD9, 0xC04C56908806DBBA, 0x402BDCCE3BD7C1FD, 0xBFF3D39F8EF6CA7E),
    (0x401038C79A3C8EDB, 0x403F866D92D57982, 0x404C94D742A67FBF, 0x40460A4E10EE1BA9, 0x402D5EB293FF463E, 0x40017E397A6CBFA1, 0xBFC1F3E9448D9677, 0xBFA1F115EE6341C7,
     0xBF4C18DE6CCBE78F),
    (0x4009E6E8E793D574, 0x401BA931C327780B, 0x400F82AEF32BB0AC, 0x3FF5541C18E79A0C, 0x3FC9CA45F35E2651, 0x3F8956509069354D, 0x3F33C3B2E8CE1812, 0x3EC64C294C0C2234,
     0x3E3ACCAC30588FF9))]
Q = [[1.0] + [double(b) for b in row] for row in (
    (0x3FFF4595D22074F9, 0x4012B4828417E5B6, 0x4055970E350B81D4, 0xC06C2ECE56C2365F, 0x40690853A8E9CBFF, 0xC0548261E78DB7D9, 0x402FCFADC1047563, 0xBFF2EEDCFABFCDD5),
    (0x402F8F5AA13BD41B, 0x4046B20489EE296F, 0x4044A89A228C461C, 0x402E15C79D87D845, 0x40040985A83CBA20, 0xBFC2330CCDDB0232, 0xBFA37F4E456DB31D, 0xBF4E94BF797D061E),
    (0x401818DA568BE828, 0x400D704DAAD23816, 0x3FF608472AAF6200, 0x3FCBADA75FD63C9B, 0x3F8B7C27ADB6C78B, 0x3F357F2B65FF2903, 0x3EC8438CF3F6CCF7, 0x3E3D29E5B8766B3D))]
# ln sqrt(2 pi), 0.5625 + ln 2 / 2, (sqrt 2 - 1) / 2 and PP1, each cut and what it then lacks; 1 less fdlibm's erx
PDF = double(0x3FED67F1C8600000), double(0x3DC2FAD29A4A5E48)
TAIL = double(0x3FED17217F700000), double(0x3DDA39EF35793C76)
K = double(0x3FCA827999E00000), double(0x3DCCEF32422CBEC5)
PP1 = -333.0 / 1024.0, PP[1] + 333.0 / 1024.0
REST = 1.0 - 8.45062911510467529297e-01
ROOT_TWO_PI, FAR = double(0x40040D931FF62706), double(0x3FC152AAA3BF81CC)


def horner(coefficients, x):
    """c0 + x (c1 + x (c2 + ..)), the last product first."""
    sum_ = coefficients[-1]
    for c in reversed(coefficients[:-1]):
        sum_ = c + x * sum_
    return sum_


def falling(coefficients, x):
    """((c0 x + c1) x + c2) x ..; a first 1 is not multiplied."""
    sum_ = coefficients[0]
    for c in coefficients[1:]:
        sum_ = sum_ * x + c
    return sum_


# ---- the tail

def split(y):
    """z, a whole number over 2^20 near to y, and y²/2 as half its square and the rest."""
    z = float(round(y * 2.0**20)) / 2.0**20
    return z, z * z / 2.0, (y - z) * (y + z) / 2.0


def near(y):
    z, s, d = split(y)
    h, b, g, v = y / 2.0, z * K[0], (y - z) * K[0] + y * K[1], s + d
    p = PP[0] + s * PP1[0] + (s * PP1[1] + (d * PP[1] + v * v * horner(PP[2:], v)))
    c = 0.5 if y < 1.0 else 1.0
    return (1.0 - c + (c - h - b - (g + (h + (b + g)) * p / horner(QQ, v)))) / 2.0


def middle(y):
    z = split(y)[0]
    u = y / 2.0 - 1.0 + z * K[0] + ((y - z) * K[0] + y * K[1])
    t, o = horner(PA[2:], u), u * horner(QA, u)
    p = PA[0] + u * (PA[1] + u * t)
    return (REST - u * PA[1] - (PA[0] + u * u * t - p * (o / (1.0 + o)))) / 2.0


def far(y):
    _, s, d = split(y)
    v = s + d
    q = 1.0 / v
    if y < 4.04:
        r = (horner(RA[3:], q) + v * horner(RA[2::-1], v)) / (horner(SA[3:], q) + v * (SA[2] + v * (SA[1] + v)))
    else:
        r = horner(RB, q) / horner(SB, q)
    a = -(s + TAIL[0])
    t = a + r
    return exp_two(t, a - t + r - (d + TAIL[1])) / y


def tail(y):
    return near(y) if y < 1.1932 else middle(y) if y < 1.7677 else far(y)


def density(y):
    _, s, d = split(y)
    return exp_two(-(s + PDF[0]), -(d + PDF[1]))


# ---- the three functions

def norm_cdf(x):
    if math.isnan(x):
        return x
    if abs(x) >= 39.0:
        return 0.0 if x < 0.0 else 1.0
    return tail(-x) if x < 0.0 else 1.0 - tail(x)


def norm_pdf(x):
    return x if math.isnan(x) else 0.0 if abs(x) >= 39.0 else density(abs(x))


def central(q):
    t = q * q
    return (q + q * (t * falling(P[0], t) / falling([t + Q[0][1], *Q[0][2:]], t))) * ROOT_TWO_PI


def upper(t):
    if t > FAR:
        y = central(0.5 - t)
    else:
        x = sqrt(-2.0 * ln(t))
        w, i = 1.0 / x, 1 if x < 8.0 else 2
        y = x - ln(x) / x - w * falling(P[i], w) / falling([w + Q[i][1], *Q[i][2:]], w)
    return y if t < 2.0**-1000 else y + (tail(y) - t) / density(y)


def norm_quantile(p):
    if math.isnan(p) or p < 0.0 or p > 1.0:
        return math.nan
    if p in (0.0, 1.0):
        return math.inf if p else -math.inf
    if abs(p - 0.5) <= 0.25:
        return central(p - 0.5)
    return -upper(p) if p < 0.5 else upper(1.0 - p)


# ---- arguments

# where a branch begins, by bits: of the tail, of the quantile
ENDS = [0x3FF0000000000000, 0x3FF31758E219652C, 0x3FFC487FCB923A2A, 0x401028F5C28F5C29, 0x4043800000000000]
QUANTILE_ENDS = [0x0170000000000000, 0x3D0C8464F7616468, 0x3FC152AAA3BF81CC, 0x3FD0000000000000, 0x3FE0000000000000, 0x3FE8000000000000, 0x3FEBAB5557101F8D]
# near to where the tail is 1 less than its last digit, and where tail and density turn subnormal and zero
TURNS = [8.292361075813597, 37.5194, 37.6159, 38.485063203395214, 38.58015760902842]
# 16 even parts of these are drawn from: the branches of the tail; those of the quantile
RANGES = [(1e-300, 1e-10), (1e-10, 0.01), (0.01, 0.5), (0.5, 1.0), (1.0, 1.1932), (1.1932, 1.5), (1.5, 1.7677), (1.7677, 2.5), (2.5, 4.04), (4.04, 8.0), (8.0, 20.0), (20.0, 37.5), (37.5, 38.6)]
QUANTILE_RANGES = [(5e-324, 2.0**-1022), (2.0**-1022, 2.0**-1000), (2.0**-1000, 1e-100), (1e-100, 1e-14), (1e-14, 1e-5), (1e-5, 0.01), (0.01, 0.1353), (0.1353, 0.25), (0.25, 0.5), (0.5, 0.75),
                   (0.75, 0.8647), (0.8647, 0.99), (0.99, 1.0)]


def even(low, high, count):
    """Numbers whose patterns are evenly spread from low to high: multiples of 2^64 over the golden ratio."""
    b, e = pattern(low), pattern(high)
    return [double(b + (i * 0x9E3779B97F4A7C15 & MASK) * (e - b) // 2**64) for i in range(1, count + 1)]


def fed():
    """The arguments of standard input, none of them +0; every one is handed to all three functions."""
    signs = 1.0, -1.0
    yield from (s * double(b + d) for b in [*ENDS, *map(pattern, TURNS)] for d in range(-3, 4) for s in signs)
    yield from (double(b + d) for b in QUANTILE_ENDS for d in range(-3, 4))
    yield from (s * x for low, high in RANGES for x in even(low, high, 16) for s in signs)
    yield from (x for low, high in QUANTILE_RANGES for x in even(low, high, 16))
    yield from (0.5 + s * 2.0**-n for n in range(2, 54) for s in signs)
    yield from (1.0 - 2.0**-n for n in range(2, 54))
    yield from (double(field << 52 | ((field + 1) * 0x9E3779B97F4A7C15 & (1 << 52) - 1)) for field in range(0, 1023, 11))
    yield from (s * (k + 0.5) * 2.0**-20 for k in (0, 1, 2**20, 2**20 + 1, 3 * 2**20, 38 * 2**20) for s in signs)  # halfway between two multiples of 2^-20
    yield from (s * x for x in (38.0, 40.0, 100.0, 1e10, 1e300) for s in signs)


def main():
    if sys.argv[1:2] == ["--stdin"]:
        for x in [*fed(), 0.0]:
            sys.stdout.buffer.write(struct.pack(">d", x))
        return
    for x in [*map(double, SPECIAL), *fed()]:
        print("at", text(x), text(norm_cdf(x)), text(norm_pdf(x)), text(norm_quantile(x)))


if __name__ == "__main__":
    main()
