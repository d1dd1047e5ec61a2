"""Holds the library against the program over random pairs: pairs.py PROGRAM COUNT, with SWS_LIBRARY and sws.py on the path."""
import os
import random
import subprocess
import sys

import sws

MATRICES = ("bt601", "bt709", "bt2020", "smpte240m", "fcc")
# formats to which the program gives no range but full
FULL = ("rgb", "bgr", "argb", "abgr", "0rgb", "0bgr", "gbr", "x2rgb", "x2bgr", "pal8", "yuvj")


def any_range(name):
    """A range that the program takes, or None, for which both have to take the same."""
    return random.choice((None, "full") if name.startswith(FULL) else (None, "full", "limited"))


def difference(program, names):
    """One random conversion: what differs, or None."""
    source, target = random.choice(names), random.choice([name for name in names if name != "pal8"])
    asked = {"from_matrix": random.choice(MATRICES), "to_matrix": random.choice(MATRICES),
             "from_range": any_range(source), "to_range": any_range(target), "dither": random.randrange(5)}
    width, rows = random.choice((1, 2, 3, 5, 64, 67)), random.randint(1, 4)
    frame = bytes(random.choice((0, 255, random.randrange(256))) for _ in range(sws.length(source, width, rows)))
    plan = sws.Plan(source, target, **asked)
    made = plan.convert(frame, width, rows)
    plan.close()
    words = [program, "--in", source, "--size", f"{width}x{rows}", "--out", target]
    for option, key in (("--in-matrix", "from_matrix"), ("--out-matrix", "to_matrix"), ("--in-range", "from_range"),
                        ("--out-range", "to_range"), ("--dither", "dither")):
        if asked[key] is not None:
            words += [option, str(asked[key])]
    run = subprocess.run(words, input=frame, capture_output=True)
    if run.returncode != 0 or run.stdout != made:
        return f"differs: {' '.join(words)}: {run.returncode} {run.stderr.decode()}"
    return None


def main():
    program, count = os.path.abspath(sys.argv[1]), int(sys.argv[2])
    random.seed(5)
    names = sws.formats()
    found = [text for text in (difference(program, names) for _ in range(count)) if text]
    for text in found[:20]:
        print(text)
    print(f"{count} pairs of {len(names)} formats, {len(found)} differ")
    return 1 if found else 0


sys.exit(main())
