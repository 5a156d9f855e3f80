#!/usr/bin/env python3
"""Certificates of the built program, and the same with one line changed, dropped, doubled or moved.

A certificate that `check` accepts is held against what it says by a plain reading of the definitions: all isotopologues of
its formula, in exact weights. Ends with 0 where nothing untrue was accepted and each unchanged certificate was.
"""
import itertools
import math
import random
import re
import subprocess
import sys

PROGRAM = sys.argv[1]
UNITS = 10**18
CERTIFICATES = 100

chance = random.Random(1)


def run(*words):
    done = subprocess.run([PROGRAM, *words], capture_output=True, text=True)
    return done.returncode, done.stdout, done.stderr


def random_table():
    """Elements of up to four isotopes with their weights, some of them 0."""
    table = {}
    for symbol in ("A", "B", "Dy"):
        count = chance.choice((1, 2, 2, 3, 4))
        weights = [chance.choice((1, 7, 500, 9999, 123456, 333333333, 999999999, 0)) for _ in range(count)]
        weights[chance.randrange(count)] = chance.randrange(1, 10**9)
        table[symbol] = [(10 * count + i, weight) for i, weight in enumerate(weights)]
    return table


def table_text(table):
    lines = ["symbol,number,mass,abundance,valence", "e-,0,0.0005,0,0"]
    for symbol, isotopes in table.items():
        for number, weight in isotopes:
            lines.append(f"{symbol},{number},{number},0.{weight:09},1")
    return "\n".join(lines) + "\n"


def atoms_of(text):
    """The unlabelled atoms of a formula's text by their elements, in Hill order without carbon."""
    atoms = {}
    for labelled, symbol, count in re.findall(r"(\[\d+[A-Z][a-z]*\])?([A-Z][a-z]*)?(\d*)", text):
        if symbol:
            atoms[symbol] = atoms.get(symbol, 0) + (int(count) if count else 1)
    return {symbol: atoms[symbol] for symbol in sorted(atoms) if atoms[symbol]}


def counts_of(places, atoms):
    """All lists of so many counts that sum to so many atoms."""
    if places == 1:
        return [[atoms]]
    return [[first, *rest] for first in range(atoms + 1) for rest in counts_of(places - 1, atoms - first)]


def isotopologues(table, text):
    """Each isotopologue of a formula by its text, with its exact weight; and the weight of all."""
    elements, whole = [], 1
    for symbol, atoms in atoms_of(text).items():
        isotopes = [(number, weight) for number, weight in table[symbol] if weight]
        whole *= sum(weight for _, weight in isotopes) ** atoms
        choices = []
        for counts in counts_of(len(isotopes), atoms):
            weight, name = math.factorial(atoms), ""
            for (number, part), count in zip(isotopes, counts):
                weight = weight // math.factorial(count) * part**count
                if count:
                    name += f"[{number}{symbol}]" + (str(count) if count > 1 else "")
            choices.append((name, weight))
        elements.append(choices)
    found = {}
    for chosen in itertools.product(*elements):
        weight = math.prod(weight for _, weight in chosen)
        found["".join(name for name, _ in chosen) or "-"] = weight
    return found, whole


def is_true(table, text):
    """Whether what a certificate says is true, in exact weights."""
    lines = text.splitlines()
    formula = lines[1].removeprefix("formula ")
    coverage, size, bound = (int(line.split()[1]) for line in lines[2:5])
    members = [line for line in lines[6:] if line.startswith(("cover ", "layer "))]
    marked = [line[6:] for line in members if line.startswith("cover ")]
    weights, whole = isotopologues(table, formula)
    if any(line[6:] not in weights for line in members):
        return False
    reached = len(set(marked)) == len(marked) and UNITS * sum(weights[name] for name in marked) >= coverage * whole
    greatest = sorted(weights.values(), reverse=True)[: max(bound - 1, 0)]
    least = bound == 0 or UNITS * sum(greatest) < coverage * whole
    return reached and len(marked) == size and least


def other_line(line, lines):
    """Another line in the place of this one."""
    word, _, rest = line.partition(" ")
    if rest.isdigit():
        number = int(rest)
        others = (number + 1, max(number - 1, 0), 2 * number, number // 2, number * 9 // 10, chance.randrange(10**18))
        return f"{word} {chance.choice(others)}"
    if word in ("cover", "layer"):
        texts = [other[6:] for other in lines if other.startswith(("cover ", "layer "))]
        return chance.choice((f"cover {chance.choice(texts)}", f"layer {rest}", f"cover {rest}", f"cover {rest}2"))
    if word == "formula":
        return chance.choice((f"formula {rest}A", f"formula {rest}B", "formula A2", "formula B"))
    return chance.choice((line + " ", "", "cover -"))


def changed(text):
    """The text with one line changed, dropped, doubled or moved, each once."""
    lines = text.splitlines()
    for way in ("changed", "dropped", "doubled", "moved"):
        place = chance.randrange(len(lines))
        rest = lines[:place] + lines[place + 1 :]
        if way == "changed":
            new = lines[:place] + [other_line(lines[place], lines)] + lines[place + 1 :]
        elif way == "dropped":
            new = rest
        elif way == "doubled":
            new = lines[: place + 1] + lines[place:]
        else:
            to = chance.randrange(len(lines))
            new = rest[:to] + [lines[place]] + rest[to:]
        yield way, "\n".join(new) + "\n"


def main():
    failed = accepted = refused = 0
    for _ in range(CERTIFICATES):
        table = random_table()
        with open("t.csv", "w") as file:
            file.write(table_text(table))
        formula = "".join(f"{symbol}{chance.randrange(1, 5)}" for symbol in chance.sample(sorted(table), chance.randrange(1, 4)))
        coverage = f"0.{chance.randrange(1, 999999):06}"
        status, text, note = run("envelope", "--table", "t.csv", "--formula", formula, "--coverage", coverage, "--certificate")
        if status != 0 or not is_true(table, text):
            failed += 1
            print(f"the certificate of {formula} for {coverage}: status {status} {note}{text}")
            continue
        for way, one in [("written", text), *changed(text)]:
            with open("certificate", "w") as file:
                file.write(one)
            status, _, note = run("check", "--table", "t.csv", "--certificate", "certificate")
            accepted += status == 0
            refused += status in (1, 5)
            untrue = status == 0 and not is_true(table, one)
            if untrue or status not in (0, 1, 5) or (way == "written" and status != 0):
                failed += 1
                print(f"a certificate with a line {way}: status {status} {note}{one}")
    print(f"certificates: {accepted} accepted, {refused} refused, {failed} failed")
    return 1 if failed or not refused else 0


sys.exit(main())
