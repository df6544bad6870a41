#!/usr/bin/env python3
"""usage: fitmany.py > crates/fitmany/stdout
       fitmany.py --stdin > crates/fitmany/stdin
What `fitmany` must print, by the oracle, and what it is given: a small job behind its length in three bytes, with an own y that no fit takes, and seven responses that meet
every end: two that are fitted, one each that ends with 10, 11, 12 and 13 behind and between them, and the first once more."""
import subprocess, sys
from pathlib import Path

sys.dont_write_bytecode = True
ROOT = Path(__file__).resolve().parent.parent.parent
sys.path.insert(0, str(ROOT / "tools" / "glmm"))
from form import job_bytes
from responses import packed

ABOUT = {"family": "gaussian", "link": "log", "n_agq": 3, "limit": 12, "blocks": [{"m": 2, "k": 1}], "theta": [0.5], "y": ["nan", -1.0, "inf", 0.0], "offset": [0.0, 0.25, -0.25, 0.0],
         "x": [[1.0, -1.0], [1.0, 0.0], [1.0, 1.0], [1.0, 0.5]], "zt": [[[0, 1.0], [2, 1.0]], [[1, 1.0], [3, 1.0]]]}
ENDS = [(0, [50.0, 2.0, 7.0, 0.001]), (10, [3.0, 1e200, 1e300, 2.0]), (0, [1e4, 1e4, 1e4, 2.0]), (11, [7.0, 1e100, 1e100, 7.0]), (12, [-1.0, 2.0, 3.0, 1.0]),
        (13, [0.001, 50.0, 0.001, 50.0]), (0, [50.0, 2.0, 7.0, 0.001])]


def main():
    given = packed(job_bytes(ABOUT), [ys for _, ys in ENDS])
    if sys.argv[1:2] == ["--stdin"]:
        sys.stdout.buffer.write(given)
        return
    said = subprocess.run([str(ROOT / "tools" / "oracle"), "responses"], input=given, check=True, stdout=subprocess.PIPE).stdout
    ends = [int(line.split()[1]) for line in said.decode().splitlines() if line.startswith("end ")]
    if ends != [end for end, _ in ENDS]:
        sys.exit(f"fitmany.py: the ends are {ends}, not those that the responses are there for")
    sys.stdout.buffer.write(said)


main()
