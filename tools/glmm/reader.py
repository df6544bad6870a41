"""Documents 01 and 02's reading of a job (P10: version 2) and of many responses behind one (P1): every number, or the first fault with its byte."""
import math, struct

LONGEST = 65536
MOST_RESPONSES = 64
TABLE = [6, 3, 4, 9, 27]  # what the table refuses a job with, in its order
VALID = {(0, 0), (0, 1), (0, 2), (1, 3), (1, 4), (1, 6), (2, 4), (2, 3), (2, 5), (3, 5), (3, 4), (3, 3)}  # family and link that go together: each pair can be fitted


class Refused(Exception):
    """A refusal and its byte."""


class Bits:
    """The job's bytes and a bit position."""

    def __init__(self, data):
        self.data, self.at = data, 0

    def take(self, width):
        if self.at + width > 8 * len(self.data):
            raise Refused(20, len(self.data))
        whole = int.from_bytes(self.data[self.at // 8:(self.at + width + 7) // 8], "big")
        self.at += width
        return whole >> -self.at % 8 & (1 << width) - 1

    def zeros(self, width):
        """Spare bits; they stand within one byte each time."""
        if self.take(width):
            raise Refused(22, (self.at - 1) // 8)

    def doubles(self, count):
        return [struct.unpack(">d", self.take(64).to_bytes(8, "big"))[0] for _ in range(count)]


class Job:
    """The numbers of a job."""


def read_header(bits, job):
    job.version = bits.take(4)
    if job.version not in (1, 2):
        raise Refused(21, 0)
    job.family = bits.take(2)
    job.link = bits.take(3)
    if job.link == 7:
        raise Refused(24, 0)
    job.weighted, job.shifted, job.n_agq = bits.take(1), bits.take(1), bits.take(5)
    job.n, job.p, job.count, limit = bits.take(13), bits.take(5), bits.take(4), bits.take(10)
    if 1001 <= limit <= 1022:
        raise Refused(24, 4)
    job.limit = None if limit == 1023 else limit
    job.start = 0
    if job.version == 2:
        job.start = bits.take(1)
        bits.zeros(7)


def read_blocks(bits, job):
    job.blocks = []
    for _ in range(job.count):
        m, k = bits.take(7), bits.take(4)
        bits.zeros(5)
        job.blocks.append((m, k))
    job.q = sum(m * k for m, k in job.blocks)


def check_sizes(job):
    fits = 1 <= job.n <= 512 and 1 <= job.p <= 16 and 1 <= job.count <= 8 and 1 <= job.q <= 32
    if not fits or any(m < 1 or not 1 <= k <= 8 for m, k in job.blocks):
        raise Refused(1, 0)


def read_numbers(bits, job):
    job.theta = bits.doubles(sum(k * (k + 1) // 2 for _, k in job.blocks))
    job.y = bits.doubles(job.n)
    job.weights = bits.doubles(job.n) if job.weighted else None
    job.offset = bits.doubles(job.n) if job.shifted else None
    job.x = [bits.doubles(job.p) for _ in range(job.n)]


def read_rows(bits, job):
    job.zt = []
    for _ in range(job.q):
        count = bits.take(13)
        bits.zeros(3)
        row = []
        for _ in range(count):
            column = bits.take(13)
            bits.zeros(3)
            row.append((column, bits.doubles(1)[0]))
        job.zt.append(row)


def in_range(family, y):
    """Whether a family is for such a response (document 02, P6): binomial from 0 to 1, Poisson from 0 on, Gaussian any, Gamma above 0."""
    return [0.0 <= y <= 1.0, 0.0 <= y, True, 0.0 < y][family]


def start_fits(job):
    """Whether the start can be asked for (document 02, P10): R's for binomial responses alone, with no weight below 0."""
    return job.start == 0 or job.family == 0 and not any(w < 0.0 for w in job.weights or [])


def check_table(job, responses):
    """Refusals 6, 3, 4, 9 and 27 over all the responses; 1 was tested before, 7 cannot come from a job, and 5 is given no longer (document 02, P8)."""
    for row in job.zt:
        columns = [column for column, _ in row]
        if any(c >= job.n for c in columns) or any(c >= d for c, d in zip(columns, columns[1:])):
            raise Refused(6, 0)
    numbers = [*job.theta, *(y for ys in responses for y in ys), *(job.weights or []), *(job.offset or []), *(v for row in job.x for v in row), *(v for row in job.zt for _, v in row)]
    if not all(map(math.isfinite, numbers)):
        raise Refused(3, 0)
    if (job.family, job.link) not in VALID:
        raise Refused(4, 0)
    if not all(in_range(job.family, y) for ys in responses for y in ys):
        raise Refused(9, 0)
    if not start_fits(job):
        raise Refused(27, 0)


def parse(data):
    """The numbers of a job, before the table but for its number 1."""
    if len(data) > LONGEST:
        raise Refused(25, LONGEST)
    bits, job = Bits(data), Job()
    read_header(bits, job)
    read_blocks(bits, job)
    check_sizes(job)
    read_numbers(bits, job)
    read_rows(bits, job)
    if bits.at // 8 < len(data):
        raise Refused(23, bits.at // 8)
    return job


def read(data):
    job = parse(data)
    check_table(job, [job.y])
    return job


def divided(data):
    """The job and the bytes behind it of an input that begins with the job's length in three bytes; each as far as the input goes."""
    size = int.from_bytes(data[:3], "big")
    return data[3:3 + size], data[3 + size:]


def check_count(job, behind):
    """Refusals 8 and 2: the whole responses are 1 to 64, and no bytes are left over behind them."""
    if not 1 <= len(behind) // (8 * job.n) <= MOST_RESPONSES:
        raise Refused(8, 0)
    if len(behind) % (8 * job.n):
        raise Refused(2, 0)


def read_many(data):
    """The job and its responses (document 02, P1). The job's own y is not looked at."""
    front, behind = divided(data)
    job = parse(front)
    check_count(job, behind)
    numbers = Bits(behind)
    responses = [numbers.doubles(job.n) for _ in range(len(behind) // (8 * job.n))]
    check_table(job, responses)
    return job, responses
