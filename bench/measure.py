#!/usr/bin/env python3
"""Times the built program beside IsoSpec and OpenMS, where they are installed, on the same questions.

  measure.py                       all cases, five rounds, a table of each command on standard output
  measure.py --program PATH        another program than ../crates/isoform/out/isoform
  measure.py --only 'envelope'     the cases whose name matches
  measure.py --rounds 9            more rounds
  measure.py --no-instructions     without callgrind
  measure.py --peers               only builds the peers, and says which are there

README.md says what is measured and what has to be installed.
"""
import argparse
import csv
import glob
import os
import re
import shlex
import shutil
import statistics
import subprocess
import sys
import tempfile
import time

HERE = os.path.dirname(os.path.abspath(__file__))
TABLE = os.path.join(HERE, "..", "examples", "elements.csv")
PROGRAM = os.path.join(HERE, "..", "crates", "isoform", "out", "isoform")
OPENMS, ISOSPEC = "openms_formulas", "isospec_covers"

CHNO, CHNOPS, CHNOPSCL = "CHNO", "CHNOPS", "CHNOPSCl"
INSULIN, ANTIBODY = "C257H383N65O77S6", "C2023H3208N524O619S20"

# Name, alphabet, mass and tolerance in Da (without a mass: a file of 1,000 made masses), rules.
DECOMPOSE = [
    ("200 Da, CHNO", CHNO, 200.0951, 0.001, None),
    ("500 Da +- 10, CHNO", CHNO, 500, 10, None),
    ("1000 Da, CHNO", CHNO, 1000.4755, 0.005, None),
    ("2000 Da, CHNO", CHNO, 2000.951, 0.01, None),
    ("600 Da, CHNOPS", CHNOPS, 600.2853, 0.003, None),
    ("1000 Da, CHNOPS", CHNOPS, 1000.4755, 0.005, None),
    ("1000 Da, CHNOPSCl, 0.001", CHNOPSCL, 1000.4755, 0.001, None),
    ("1000 Da, CHNOPSCl", CHNOPSCL, 1000.4755, 0.005, None),
    ("1000 Da, CHNOPSCl, golden", CHNOPSCL, 1000.4755, 0.005, "golden"),
    ("1000 masses, CHNO", CHNO, None, 0.002, None),
    ("1000 masses, CHNOPSCl, golden", CHNOPSCL, None, 0.001, "golden"),
]
# Name, formula, coverage.
ENVELOPE = [
    ("glucose 0.99", "C6H12O6", "0.99"),
    ("insulin 0.9", INSULIN, "0.9"),
    ("insulin 0.99", INSULIN, "0.99"),
    ("insulin 0.999999", INSULIN, "0.999999"),
    ("one element, O1446 0.999999", "O1446", "0.999999"),
    ("antibody 0.9", ANTIBODY, "0.9"),
    ("antibody 0.99", ANTIBODY, "0.99"),
    ("antibody 0.999993", ANTIBODY, "0.999993"),
]
# Name, alphabet, mass of the substance, tolerance in ppm, coverage, rules.
RANK = [
    ("caffeine, CHNO", CHNO, 194.080375574, 5, "0.99", None),
    ("reserpine, CHNOPS", CHNOPS, 608.273380872, 5, "0.9", None),
    ("reserpine, CHNOPS 0.99", CHNOPS, 608.273380872, 5, "0.99", None),
    ("erythromycin, CHNOPSCl, golden", CHNOPSCL, 733.461241234, 5, "0.9", "golden"),
]
LIMIT = 900  # seconds that a run has
SLOW = 4  # seconds above which callgrind, which takes some fifty times as long, is left out


COLUMNS = ["Case", "Count", "MB", "ms", "Beside", "its ms", "ratio", "ratio to its work", "million instructions", "its", "ratio"]


class Isotopes:
    """The table file: for each element the masses and probabilities of its isotopes."""

    def __init__(self, path):
        self.of = {}
        with open(path, newline="", encoding="utf-8") as file:
            for row in list(csv.reader(file))[1:]:
                if row[0] != "e-" and float(row[3]) > 0:
                    self.of.setdefault(row[0], []).append((float(row[2]), float(row[3])))

    def mass(self, symbol):
        return max(self.of[symbol], key=lambda it: it[1])[0]

    def write(self, path):
        with open(path, "w", encoding="utf-8") as file:
            for symbol, isotopes in self.of.items():
                whole = sum(it[1] for it in isotopes)
                for mass, weight in isotopes:
                    file.write(f"{symbol} {mass!r} {weight / whole!r}\n")


def symbols_of(alphabet):
    return re.findall("[A-Z][a-z]*", alphabet)


class Runner:
    """One way to answer a case: a command line, its input, and what its rounds took."""

    def __init__(self, name, words, given="/dev/null", counted=None):
        self.name, self.words, self.given, self.counted = name, words, given, counted
        self.seconds, self.inside, self.status, self.memory = [], [], None, 0
        self.count = self.instructions = None
        self.is_pipe = False

    def run(self, place, count=False):
        out, err = os.path.join(place, self.name + ".out"), os.path.join(place, self.name + ".err")
        made = os.O_WRONLY | os.O_CREAT | os.O_TRUNC
        actions = [
            (os.POSIX_SPAWN_OPEN, 0, self.given, os.O_RDONLY, 0),
            (os.POSIX_SPAWN_OPEN, 1, out, made, 0o600),
            (os.POSIX_SPAWN_OPEN, 2, err, made, 0o600),
        ]
        words = ["timeout", str(LIMIT), *self.words] if count else self.words
        start = time.perf_counter()
        child = os.posix_spawnp(words[0], words, os.environ, file_actions=actions)
        _, status, used = os.wait4(child, 0)
        seconds = time.perf_counter() - start
        self.status = os.waitstatus_to_exitcode(status)
        if self.status:
            return
        self.memory = max(self.memory, used.ru_maxrss)
        if count:
            self.count = self.counted(out) if self.counted else None
        else:
            self.seconds.append(seconds)
            with open(err, encoding="utf-8", errors="replace") as file:
                last = file.read().split("\n")[-2:-1]
            if last and re.fullmatch(r"\d+\.\d+", last[0]):
                self.inside.append(float(last[0]))

    def count_instructions(self):
        words = ["valgrind", "--tool=callgrind", "--callgrind-out-file=/dev/null", *self.words]
        with open(self.given, "rb") as given:
            ran = subprocess.run(words, stdin=given, stdout=subprocess.DEVNULL, stderr=subprocess.PIPE, text=True)
        found = re.search(r"Collected : (\d+)", ran.stderr)
        self.instructions = int(found[1]) if found and ran.returncode == 0 else None

    @property
    def median(self):
        return statistics.median(self.seconds) if self.seconds else None


def lines_that_begin(word):
    def count(path):
        with open(path, "rb") as file:
            return sum(line.startswith(word) for line in file)

    return count


def number_behind(word):
    """The number behind this word, in the first line that has it."""

    def find(path):
        with open(path, "rb") as file:
            for line in file:
                found = re.search(word + rb" (\d+)", line)
                if found:
                    return int(found[1])
        return None

    return find


def made_masses(isotopes, number):
    """Masses of made formulas of C, H, N and O, by a linear congruential generator: the same in each run."""
    state, masses = 1, []
    for _ in range(number):
        draws = []
        for _ in range(4):
            state = (1103515245 * state + 12345) % 2**31
            draws.append(state // 65536)
        carbon = 1 + draws[0] % 30
        counts = {"C": carbon, "H": carbon + draws[1] % (carbon + 3), "N": draws[2] % 4, "O": draws[3] % 8}
        masses.append(sum(count * isotopes.mass(symbol) for symbol, count in counts.items()))
    return masses


class Bench:
    def __init__(self, options, place):
        self.options, self.place = options, place
        self.isotopes = Isotopes(TABLE)
        self.isotope_file = os.path.join(place, "isotopes")
        self.isotopes.write(self.isotope_file)
        self.peers = {OPENMS: self.build_openms(), ISOSPEC: self.build(ISOSPEC, ["-lIsoSpec++"])}
        self.has_valgrind = bool(shutil.which("valgrind")) and not options.no_instructions
        self.made = made_masses(self.isotopes, 1000)
        self.differences = []

    def build(self, name, words):
        """Compiles a peer, or answers None where its library isn't there."""
        made = os.path.join(self.place, name)
        source = os.path.join(HERE, name + ".cpp")
        command = [os.environ.get("CXX", "g++"), "-O3", "-std=gnu++17", source, "-o", made, *words]
        try:
            ran = subprocess.run(command, capture_output=True, text=True)
        except FileNotFoundError:
            ran = None
        if ran is None or ran.returncode:
            print(f"{name}: left out, since it isn't compiled here (README.md names the packages)", file=sys.stderr)
            return None
        return made

    def build_openms(self):
        """Debian's package has the configuration headers of OpenMS in another folder than its own headers name."""
        shim = os.path.join(self.place, "shim", "OpenMS")
        os.makedirs(shim)
        for header in glob.glob("/usr/include/OpenMS/build/**/src/openms/*onfig.h", recursive=True):
            os.symlink(header, os.path.join(shim, os.path.basename(header)))
        return self.build(OPENMS, ["-I", os.path.dirname(shim), "-lOpenMS"])

    def file(self, name, text):
        path = os.path.join(self.place, name)
        with open(path, "w", encoding="utf-8") as file:
            file.write(text)
        return path

    def openms_words(self, alphabet):
        rising = sorted((self.isotopes.mass(symbol), symbol) for symbol in symbols_of(alphabet))
        return [self.peers[OPENMS], *(word for mass, symbol in rising for word in (symbol, repr(mass)))]

    def program(self, *words):
        return [self.options.program, *words]

    def measure(self, runners):
        """Counts once and then runs the rounds, each runner in turn; those that don't answer are left out."""
        for it in runners:
            it.run(self.place, count=True)
        runners = [it for it in runners if it.status == 0]
        for _ in range(self.options.rounds):
            for it in runners:
                if sum(it.seconds) < self.options.budget:
                    it.run(self.place)
        if self.has_valgrind:
            for it in runners:
                if it.median is not None and it.median < SLOW and not it.is_pipe:
                    it.count_instructions()
        return runners

    def decompose(self, case):
        name, alphabet, mass, tolerance, rules = case
        words = ["decompose", "--table", TABLE, "--da", str(tolerance), "--alphabet", alphabet]
        masses = self.made if mass is None else [mass]
        if mass is None:
            peaks = self.file("made.csv", "mz,intensity\n" + "".join(f"{it:.6f},1\n" for it in masses))
            words += ["--peaks", peaks]
        else:
            words += ["--mass", str(mass)]
        if rules:
            words += ["--rules", rules]
        # A quarter of the unit keeps a mass on the edge inside, in doubles.
        windows = self.file("windows", "".join(f"{it:.6f} {tolerance + 0.25e-12!r}\n" for it in masses))
        runners = [
            Runner("ours", self.program(*words), counted=lines_that_begin(b"formula ")),
            Runner("json", self.program(*words, "--json")),
        ]
        if self.peers[OPENMS]:
            peer = Runner("OpenMS", self.openms_words(alphabet), windows, lines_that_begin(b""))
            runners.insert(1, peer)
        return self.rows(name, self.measure(runners), same_count=not rules)

    def envelope(self, case):
        name, formula, coverage = case
        words = ["envelope", "--table", TABLE, "--formula", formula, "--coverage", coverage]
        given = self.file("formula", formula + "\n")
        runners = [
            Runner("ours", self.program(*words), counted=number_behind(b"size")),
            Runner("json", self.program(*words, "--json")),
            Runner("certificate", self.program(*words, "--certificate")),
        ]
        if self.peers[ISOSPEC]:
            peer = [self.peers[ISOSPEC], coverage, self.isotope_file]
            runners.insert(1, Runner("IsoSpec", peer, given, number_behind(b"size")))
        return self.rows(name, self.measure(runners))

    def check(self, case):
        """A certificate of the program's own, read and judged by `check`."""
        name, formula, coverage = case
        words = ["--table", TABLE, "--formula", formula, "--coverage", coverage]
        path = os.path.join(self.place, "certificate")
        with open(path, "wb") as file:
            made = subprocess.run(self.program("envelope", *words, "--certificate"), stdout=file, stderr=subprocess.DEVNULL)
        if made.returncode:
            return self.rows(name, [])
        return self.rows(name, self.measure([
            Runner("ours", self.program("check", "--table", TABLE, "--certificate", path), counted=number_behind(b"size")),
            Runner("envelope", self.program("envelope", *words), counted=number_behind(b"size")),
        ]))

    def rank(self, case):
        name, alphabet, mass, ppm, coverage, rules = case
        # The peak of the substance and, made, that of its molecules with one 13C.
        peaks = self.file("peaks.csv", f"mz,intensity\n{mass:.9f},100\n{mass + 1.00335483507:.9f},30\n")
        words = ["rank", "--table", TABLE, "--peaks", peaks, "--peak", "1", "--ppm", str(ppm)]
        words += ["--alphabet", alphabet, "--coverage", coverage] + (["--rules", rules] if rules else [])
        runners = [
            Runner("ours", self.program(*words), counted=lines_that_begin(b"place ")),
            Runner("json", self.program(*words, "--json")),
        ]
        if all(self.peers.values()):
            windows = self.file("windows", f"{mass:.9f} {mass * ppm * 1e-6!r}\n")
            # Both peers, one behind the other: the formulas, and then the size of the cover of each.
            covers = [self.peers[ISOSPEC], coverage, self.isotope_file, "sizes"]
            pipe = f"{shlex.join(self.openms_words(alphabet))} 2>/dev/null | {shlex.join(covers)} 2>/dev/null"
            pair = Runner("OpenMS, IsoSpec", ["sh", "-c", pipe], windows, lines_that_begin(b"size "))
            pair.is_pipe = True
            runners.insert(1, pair)
        return self.rows(name, self.measure(runners), same_count=not rules)

    def rows(self, name, runners, same_count=True):
        """The rows of a case: the program beside each peer and each other form of its own."""
        if not runners or runners[0].name != "ours":
            return [[name, "not answered", *["-"] * 9]]
        ours, rows = runners[0], []
        for it in runners[1:] or [None]:
            if it and same_count and it.count not in (None, ours.count):
                self.differences.append(f"{name}: {ours.count} by the program and {it.count} by {it.name}")
            rows.append([
                name,
                f"{ours.count:,}",
                f"{ours.memory / 1024:.0f}",
                milliseconds(ours.seconds),
                it.name if it else "-",
                milliseconds(it.seconds) if it else "-",
                ratio(ours.seconds, it.seconds) if it else "-",
                ratio(ours.seconds, it.inside) if it else "-",
                millions(ours.instructions),
                millions(it.instructions) if it else "-",
                ratio([ours.instructions], [it.instructions]) if it else "-",
            ])
        return rows


def milliseconds(seconds):
    return f"{1000 * statistics.median(seconds):,.1f}" if seconds else "-"


def millions(count):
    return "-" if count is None else f"{count / 1e6:,.1f}"


def ratio(ours, others):
    """The median of the ratios of rounds that ran one after the other."""
    pairs = [(a, b) for a, b in zip(ours, others) if a is not None and b]
    return f"{statistics.median(a / b for a, b in pairs):.2f}" if pairs else "-"


def line(cells):
    return "| " + " | ".join(cells) + " |"


def main():
    parser = argparse.ArgumentParser(description=__doc__, formatter_class=argparse.RawDescriptionHelpFormatter)
    parser.add_argument("--program", default=PROGRAM)
    parser.add_argument("--only", default="")
    parser.add_argument("--rounds", type=int, default=5)
    parser.add_argument("--budget", type=float, default=20, help="seconds of a runner in a case, then no more rounds")
    parser.add_argument("--no-instructions", action="store_true")
    parser.add_argument("--peers", action="store_true")
    options = parser.parse_args()
    options.program = os.path.abspath(options.program)
    with tempfile.TemporaryDirectory(prefix="isoform-bench-") as place:
        bench = Bench(options, place)
        print("peers: " + (", ".join(name for name, path in bench.peers.items() if path) or "none"), flush=True)
        if options.peers:
            return 0
        if not os.access(options.program, os.X_OK):
            print(f"{options.program} isn't there: run ../isoform once, or name a program", file=sys.stderr)
            return 2
        tables = [(bench.decompose, DECOMPOSE), (bench.envelope, ENVELOPE), (bench.check, ENVELOPE), (bench.rank, RANK)]
        for measure, cases in tables:
            command = measure.__name__
            asked = [it for it in cases if re.search(options.only, f"{command} {it[0]}")]
            if asked:
                print(f"\n### {command}\n\n{line(COLUMNS)}\n{line(['---'] * len(COLUMNS))}")
            for case in asked:
                for row in measure(case):
                    print(line(row), flush=True)
        print("\ncounts that differ: " + ("; ".join(bench.differences) or "none"))
    return 0


if __name__ == "__main__":
    sys.exit(main())
