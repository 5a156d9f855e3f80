#!/usr/bin/env python3
"""Holds the program's --json reports against its text reports, on made requests: what Python's json, and jq where it is
there, read from the one is what the other says, and the bytes are the compact text of that value with its keys in order."""
import json
import os
import random
import shutil
import subprocess
import sys
import tempfile

ROOT = os.path.dirname(os.path.dirname(os.path.abspath(__file__)))
PROGRAM = os.path.join(ROOT, "crates", "isoform", "out", "isoform")
EXAMPLES = os.path.join(ROOT, "examples")
MASSES = {"C": 12, "H": 1.00782503223, "N": 14.00307400443, "O": 15.99491461957, "S": 31.9720711744}
PROTON, SODIUM = 1.007276452321, 22.989220702091


def of_decompose(lines):
    peaks = []
    for words in lines[1:]:
        if words[0] == "peak":
            peaks.append({"peak": int(words[1]), "mz": words[2], "formulas": []})
        else:
            _, formula, mass, ion, delta = words
            peaks[-1]["formulas"].append({"formula": formula, "mass": mass, "ion": ion, "delta": delta})
    assert int(lines[0][1]) == len(peaks)
    return {"peaks": peaks}


def of_envelope(lines):
    value = {"formula": lines[0][1], "coverage": lines[1][1], "size": int(lines[2][1]), "bound": int(lines[3][1])}
    value["threshold"] = lines[4][1]
    names = ("isotopologue", "mass", "lo", "hi")
    value["isotopologues"] = [dict(zip(names, words[1:], strict=True)) for words in lines[5:]]
    assert value["size"] == len(value["isotopologues"])
    return value


def of_rank(lines):
    jobs = []
    for words in lines[1:]:
        if words[0] == "job":
            _, peak, mz, state, count = words
            jobs.append({"peak": int(peak), "mz": mz, "done": state == "done", "count": int(count), "places": []})
        else:
            _, place, formula, score, size, bound = words
            place = {"place": int(place), "formula": formula, "score": score, "size": int(size), "bound": int(bound)}
            jobs[-1]["places"].append(place)
    assert int(lines[0][1]) == len(jobs)
    return {"jobs": jobs}


READERS = {"decompose": of_decompose, "envelope": of_envelope, "rank": of_rank}


def once(pairs):
    """A JSON object, where no key stands twice."""
    assert len({key for key, _ in pairs}) == len(pairs), "a key stands twice"
    return dict(pairs)


def made_formula(draw):
    counts = {"C": draw.randint(1, 20), "H": draw.randint(0, 40), "N": draw.randint(0, 4), "O": draw.randint(0, 8)}
    counts["S"] = draw.choice([0, 0, 1])
    text = "".join(symbol + (str(count) if count > 1 else "") for symbol, count in counts.items() if count)
    return text, sum(count * MASSES[symbol] for symbol, count in counts.items())


def requests(place):
    """50 requests, the same each time."""
    draw, table = random.Random(1), ["--table", os.path.join(EXAMPLES, "elements.csv")]
    for number in range(22):
        _, mass = made_formula(draw)
        adduct, added = draw.choice([("M", 0), ("[M+H]+", PROTON), ("[M+Na]+", SODIUM)])
        words = ["decompose", *table, "--mass", f"{mass + added:.6f}", "--adduct", adduct]
        words += draw.choice([["--ppm", "5"], ["--da", "0.003"], ["--ppm-calc", "10"]])
        words += ["--alphabet", draw.choice(["CHNO", "CHO", "CHNOS", "CHO[13C]0-2", "C[13C]"])]
        words += draw.choice([[], ["--rules", "golden"], ["--limit", "2"]])
        yield words
    for number in range(14):
        text, _ = made_formula(draw)
        text = draw.choice([text, text, "[13C]6" + text, "[13C]6"])
        words = ["envelope", *table, "--formula", text, "--coverage", draw.choice(["0.5", "0.99", "0.9999"])]
        yield words + draw.choice([[], ["--adduct", "[M+H]+"], ["--adduct", "[M]-"]])
    for number in range(14):
        masses = [made_formula(draw)[1] for _ in range(draw.randint(0, 3))]
        peaks = os.path.join(place, f"peaks{number}.csv")
        with open(peaks, "w", encoding="utf-8") as file:
            file.write("mz,intensity\n" + "".join(f"{mass:.6f},{draw.randint(1, 99)}\n" for mass in masses))
        words = [*table, "--peaks", peaks, "--ppm", "5", "--alphabet", "CHNO"]
        if number < 4:
            yield ["decompose", *words]
        else:
            yield ["rank", *words, "--coverage", "0.9", *draw.choice([[], ["--turn", "1", "--turns", "3"]])]


def run(words):
    return subprocess.run([PROGRAM, *words], capture_output=True, check=False)


def fault(words):
    """What is wrong with the JSON report of these words, or None."""
    text, told = run(words), run([*words, "--json"])
    if (text.returncode, text.stderr) != (told.returncode, told.stderr):
        return f"status {told.returncode} and {told.stderr!r} in place of {text.returncode} and {text.stderr!r}"
    if text.returncode:
        return f"{told.stdout[:80]!r} with status {text.returncode}" if told.stdout else None
    lines = [line.split(" ") for line in text.stdout.decode("ascii").splitlines()]
    wanted = READERS[words[0]](lines)
    if json.loads(told.stdout, object_pairs_hook=once) != wanted:
        return "Python's json reads another value than the text report has"
    compact = json.dumps(wanted, separators=(",", ":"), sort_keys=True).encode() + b"\n"
    if told.stdout != compact:
        return "another text than the compact one with its keys in order"
    if shutil.which("jq"):
        by_jq = subprocess.run(["jq", "-cS", "."], input=told.stdout, capture_output=True, check=False)
        if by_jq.stdout != compact:
            return f"jq reads another value: {by_jq.stderr[:80]!r}"
    return None


def main():
    with tempfile.TemporaryDirectory() as place:
        asked = list(requests(place))
        faults = [(words, found) for words in asked if (found := fault(words))]
    for words, found in faults:
        print(f"--json of {' '.join(words)}: {found}")
    print(f"json: {len(asked) - len(faults)} passed, {len(faults)} failed")
    return 1 if faults else 0


if __name__ == "__main__":
    sys.exit(main())
