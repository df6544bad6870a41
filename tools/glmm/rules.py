"""Gauss-Hermite rules as printed in document 000, the choice of an order, and the log of a sum of exponentials."""
import math
from families import exp, larger, ln

HALVES = {  # order: the middle weight, then (node, weight) outwards
    3: (0.6666666666666665, [(1.7320508075688772, 0.16666666666666669)]),
    5: (0.5333333333333333, [(1.3556261799742659, 0.2220759220056126), (2.8569700138728056, 0.011257411327720693)]),
    7: (0.45714285714285713, [(1.1544053947399682, 0.24012317860501273), (2.3667594107345416, 0.03075712396758651), (3.7504397177257425, 0.0005482688559722182)]),
    9: (0.4063492063492064, [(1.0232556637891326, 0.2440975028949394), (2.07684797867783, 0.04991640676521791), (3.2054290028564703, 0.0027891413212317653),
                             (4.512745863399783, 2.2345844007746576e-5)]),
    11: (0.3694083694083694, [(0.9288689973810641, 0.24224029987396992), (1.876035020154846, 0.06613874607105782), (2.8651231606436456, 0.006720285235537264),
                              (3.9361666071299766, 0.00019567193027122338), (5.188001224374871, 8.121849790214923e-7)])}
JOINT_MOST_Q = 8
WISH, EFFECTS, CAP, DIAGONAL, SPREAD, SUM = range(1, 7)  # document 02, P5: why it stayed with Laplace


class Declined(Exception):
    """A quadrature that keeps Laplace: the number of the reason, and the cause in words."""


def rule(order):
    """Nodes rising and their weights."""
    middle, right = HALVES[order]
    nodes = [-z for z, _ in reversed(right)] + [0.0] + [z for z, _ in right]
    weights = [w for _, w in reversed(right)] + [middle] + [w for _, w in right]
    return nodes, weights


def order_within(wish, dimensions, most):
    """The first order not below the wish (11 at most), stepped down until its grid has at most `most` points."""
    order = next((o for o in (3, 5, 7, 9, 11) if o >= wish), 11)
    while most is not None and order**dimensions > most:
        order -= 2
        if order < 3:
            raise Declined(CAP, "cap")
    return order


def wished(wish):
    if wish < 2:
        raise Declined(WISH, "wish")


def product_order(wish, k):
    wished(wish)
    return order_within(wish, k, None if k == 1 else 400)


def joint_order(wish, q):
    wished(wish)
    if q == 0 or q > JOINT_MOST_Q:
        raise Declined(EFFECTS, "effects")
    return order_within(wish, q, 7000)


def log_sum_exp(terms):
    most = -math.inf
    for t in terms:
        most = larger(most, t)
    if not math.isfinite(most):
        return -math.inf
    total = 0.0
    for t in terms:
        total += exp(t - most)
    return most + ln(total)
