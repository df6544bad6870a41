#!/usr/bin/env python3
"""usage: family_lists.py > crates/cases_family_lists/stdout
       family_lists.py --stdin > crates/cases_family_lists/stdin
What `cases_family_lists` must print, by the oracle (oracle/vectors/family_lists.rs, which makes the same calls), and the steps that it is fed."""
import math, struct, subprocess, sys
from pathlib import Path

NAN, INF = math.nan, math.inf
ROOT = Path(__file__).resolve().parents[2]
LINKS = ["logit", "cloglog", "log", "inverse", "sqrt"]
FAMILIES = ["binomial", "poisson", "gaussian", "gamma"]
# the steps by their codes, which begin at one; what a call takes behind its lists is told by its name
STEPS = ["link_fun", "link_inv", "mu_eta", "variance", "initialize_mu", "dev_resid", "hold", "end", "double", "aic"]
HELD = [9.0, 8.0, 7.0]
DEVIANCES = [NAN, INF, -INF, 0.0, -0.0, -1.0, 5e-324, 0.1, 0.7, 10.0, 1e308]


def words(*xs):
    """Counts and doubles in words of eight bytes, as the crate `fed` reads them."""
    return b"".join(struct.pack(">d" if isinstance(x, float) else ">Q", x) for x in xs)


def step(name, word="", lists=(), out=3, behind=()):
    """A step's code, the word that is printed before it, its lists at the places 0, 3 and 6 of nine numbers, the length of the output, and what else it reads."""
    nine = [x for xs in [*lists, (), (), ()][:3] for x in [*xs, *[0.0] * (3 - len(xs))]]
    sys.stdout.buffer.write(words(1 + STEPS.index(name), len(word)) + word.encode() + words(*nine, out, *behind))


def link_list(name, link, x, **more):
    step(name, lists=[x], behind=[LINKS.index(link), len(x)], **more)


def family_list(name, family, *lists, **more):
    step(name, lists=lists, behind=[FAMILIES.index(family), *map(len, lists)], **more)


def aic(dev):
    step("double", "aic", behind=[dev])

    def call(family, *lists):
        step("aic", lists=lists, behind=[FAMILIES.index(family), *map(len, lists), dev])

    # absent weights, ones, and weights of which some add no logarithm; then too few
    for weights in [[], [1.0, 1.0, 1.0], [0.5, 3.0, 0.0], [-2.0, NAN, 7.0], [1e-300, 1e300, INF], [1.0, 1.0]]:
        call("gaussian", [1.0, 2.0, 3.0], [1.5, 1.5, 2.5], weights)
    # the other families, no responses, and too few means
    call("binomial", [1.0], [1.5], [2.0])
    call("poisson", [1.0], [1.5], [])
    call("gaussian", [], [], [])
    call("poisson", [1.0, 2.0], [1.0], [])
    step("end", out=0)


def gamma_aic(dev):
    step("double", "gamma", behind=[dev])

    def call(*lists):
        step("aic", lists=lists, behind=[FAMILIES.index("gamma"), *map(len, lists), dev])

    # absent weights, ones, some not above zero, a NaN, sizes that overflow, a sum of zero; then too few
    y, mu = [1.0, 2.0, 3.0], [1.5, 1.5, 2.5]
    for weights in [[], [1.0, 1.0, 1.0], [0.5, 3.0, 0.0], [-2.0, NAN, 7.0], [1e-300, 1e300, INF], [1e-300, 1e-300, 0.0], [1.0, -2.0, 1.0], [1.0, 1.0]]:
        call(y, mu, weights)
    # responses without a density, with a weight and without; a response below E; means that are taken for E; no responses, and too few means
    call([1.0, 0.0, 3.0], mu, [])
    call([1.0, NAN, 3.0], mu, [])
    call([1.0, NAN, 3.0], mu, [1.0, 0.0, 1.0])
    call([1.0, -2.0, 3.0], mu, [2.0, -1.0, 1.0])
    call([1e-300, 2.0, 3.0], mu, [])
    call(y, [NAN, -1.0, 0.0], [])
    call([], [], [])
    call(y, mu[:2], [])
    step("end", out=0)


def written():
    """What the list functions write; the deviances with weights and without."""
    x = [0.25, 0.5, NAN]
    calls = [[(link_list, "link_fun", "logit", x), (link_list, "link_inv", "cloglog", x), (link_list, "mu_eta", "inverse", x)],
             [(family_list, "variance", "binomial", x), (family_list, "initialize_mu", "poisson", x)],
             [(family_list, "variance", "gamma", x), (family_list, "initialize_mu", "gamma", x)],
             *[[(family_list, "dev_resid", "binomial", x, [0.4] * 3, weights)] for weights in ([2.0, 3.0, 4.0], [])],
             *[[(family_list, "dev_resid", "gamma", x, [0.4] * 3, weights)] for weights in ([2.0, 3.0, 4.0], [])]]
    for group in calls:
        step("hold", behind=HELD)
        for call, *arguments in group:
            call(*arguments, word="list")
            step("end")


def links(word, x, out):
    link_list("link_fun", "logit", x, word=word, out=out)
    link_list("link_inv", "log", x, out=out)
    link_list("mu_eta", "sqrt", x, out=out)


def families(word, x, out):
    family_list("variance", "poisson", x, word=word, out=out)
    family_list("initialize_mu", "gaussian", x, out=out)


def refused():
    """Lists that differ in length: number 2, and the output as it was."""
    two, three = [0.25, 0.5], [0.25, 0.5, 0.75]
    for call, x in [(links, two), (links, []), (families, two)]:
        step("hold", behind=HELD)
        call("refused", x, 3)
        step("end")
    # too short an output; too few means; too few weights; weights without responses
    for lists in [(two, two, two), (three, two, three), (three, three, two), ([], [], two)]:
        step("hold", behind=HELD)
        family_list("dev_resid", "gaussian", *lists, word="refused")
        step("end")


def empty():
    """Empty lists are accepted."""
    links("empty", [], 0)
    step("end", out=0)
    families("empty", [], 0)
    family_list("dev_resid", "poisson", [], [], [], out=0)
    step("end", out=0)


def main():
    if "--stdin" not in sys.argv:
        subprocess.run([ROOT / "tools" / "oracle", "vectors", "family_lists"], check=True)
        return
    for dev in DEVIANCES:
        aic(dev)
    for dev in DEVIANCES:
        gamma_aic(dev)
    written()
    refused()
    empty()


if __name__ == "__main__":
    main()
