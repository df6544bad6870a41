"""What stands beside R's lme4: whether it is there, its installation, and how far two lists lie apart."""
import math, os, shutil, subprocess, sys
from pathlib import Path

NAME = f"tools/{Path(sys.argv[0]).name}"
PACKAGES = ["r-base-core", "r-cran-lme4"]
NEAR = 1e-6  # what two answers at the same theta may lie apart


def has_lme4():
    return shutil.which("Rscript") and subprocess.run(["Rscript", "-e", "library(lme4)"], capture_output=True).returncode == 0


def install():
    """Debian's packages, where that may be done."""
    if os.geteuid() != 0 or not shutil.which("apt-get"):
        sys.exit(f"{NAME}: --install wants root and apt-get; nothing was installed ({' '.join(PACKAGES)})")
    for words in (["update"], ["install", "-y", "--no-install-recommends", *PACKAGES]):
        done = subprocess.run(["apt-get", "-q", "-o", "DPkg::Lock::Timeout=300", *words], stdout=sys.stderr, env={**os.environ, "DEBIAN_FRONTEND": "noninteractive"})
        if done.returncode != 0:
            sys.exit(f"{NAME}: apt-get {' '.join(words)} failed")


def wanted(installing):
    """R with lme4, installed where that was asked for; else the run ends."""
    if installing and not has_lme4():
        install()
    if not has_lme4():
        sys.exit(f"{NAME}: R with lme4 is missing; on Debian: apt-get install {' '.join(PACKAGES)}, or --install as root")


def apart(ours, theirs):
    """The largest difference, over the largest of their numbers."""
    if len(ours) != len(theirs):
        return math.inf
    return max(abs(a - b) for a, b in zip(ours, theirs)) / (max(map(abs, theirs)) or 1)
