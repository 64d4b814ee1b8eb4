#!/usr/bin/env python3
"""Measures a program against select.c and xmllint on whole runs.

    run.py PROGRAM [RUNS] [--markdown]

Builds select.c with `cc -O2` and makes listings of four sizes and rules of
four sizes. Before anything is timed it checks for every pair that the program
and select.c print the same, and that xmllint's count is their count. Then it
prints the median time of a run of each (RUNS runs each, 300 unless said
otherwise, in turns), and the ratios of the medians.

The first row is the cost of starting a process: a run that refuses at once,
and for xmllint a listing of one node. The net ratios leave that share out,
where what remains can be measured. With --markdown the table follows once
more as Markdown, without the net ratios.

xmllint evaluates count(RULE) on the listing, which is its standard input. It
prints that one number, while the others print the number of every selected
folder as well.
"""

import argparse
import os
import random
import shutil
import statistics
import subprocess
import sys
import tempfile
import time

sys.dont_write_bytecode = True  # no caches among the sources

HERE = os.path.dirname(os.path.abspath(__file__))
sys.path.insert(0, os.path.dirname(HERE))
import generate

FOLDERS = [b"src", b"docs", b"lib", b"test", b"build", b"images", b"notes",
           b"archive", b"old", b"data", b"letters", b"projects"]
MAX_TEXT = 1024
SIZES = [1024, 4 * 1024, 16 * 1024, 64 * 1024 - MAX_TEXT - 1]
RULE_NODES = [1, 4, 16, 64]
LEAST = 50e-6  # seconds; a smaller remainder is lost in the noise
COLUMNS = ["listing bytes", "rule nodes", "selected", "program ms", "C ms",
           "xmllint ms", "program/C", "program/xmllint"]
NET_COLUMNS = ["net program/C", "net program/xmllint"]


def folders(size, count):
    """A tree of `count` folders; one size always gives the same tree."""
    r = random.Random(size)
    tree = generate.Tree(b"root")
    nodes = [(tree, 0)]
    while len(nodes) < count:
        upper, depth = r.choice(nodes[-40:] + nodes[:5])
        if depth < 12:
            node = generate.Tree(r.choice(FOLDERS))
            upper.children.append(node)
            nodes.append((node, depth + 1))
    for node, _ in nodes:
        node.dated = r.random() < 0.2
    return tree


def written(tree):
    """The listing, indented, with an attribute here and there."""
    out = [b"<?xml version='1.0'?>"]

    def element(node, depth):
        indent = b"\n" + b" " * depth
        tag = node.label + (b' date="2024-05-17"' if node.dated else b"")
        if not node.children:
            out.append(indent + b"<" + tag + b"/>")
            return
        out.append(indent + b"<" + tag + b">")
        for child in node.children:
            element(child, depth + 1)
        out.append(indent + b"</" + node.label + b">")

    element(tree, 0)
    return b"".join(out) + b"\n"


def largest(size):
    """The tree with the most folders whose listing has `size` bytes or less."""
    low, high = 1, size
    while high - low > 1:
        middle = (low + high) // 2
        if len(written(folders(size, middle))) <= size:
            low = middle
        else:
            high = middle
    return folders(size, low)


def a_rule(r, tree, count):
    """A rule of exactly `count` nodes; with several, it occurs at the root."""
    if count == 1:
        return b"//" + FOLDERS[0]
    while True:
        rule = generate.grown_rule(r, tree, count, loose=0.1)
        rule.test = b"*"
        tokens = generate.rule_tokens(r, rule, further=0.5)
        text = b"".join(tokens)
        tests = sum(token[:1].isalpha() or token == b"*" for token in tokens)
        if tests == count and len(text) <= MAX_TEXT:
            return text


def pairs():
    """Rule texts with their numbers of rule nodes, and listings."""
    r = random.Random(7)
    for size in SIZES:
        tree = largest(size)
        for count in RULE_NODES:
            yield a_rule(r, tree, count), count, written(tree)


class Start:
    """A command, the file that is its standard input, its times so far."""

    def __init__(self, command, data, folder):
        self.command = command
        self.times = []
        handle, path = tempfile.mkstemp(dir=folder)
        with open(handle, "wb") as file:
            file.write(data)
        self.source = os.open(path, os.O_RDONLY)

    def output(self):
        os.lseek(self.source, 0, os.SEEK_SET)
        return subprocess.run(self.command, stdin=self.source,
                              stdout=subprocess.PIPE, check=True).stdout

    def timed(self, sink):
        """One whole run, from starting the process to its end."""
        os.lseek(self.source, 0, os.SEEK_SET)
        actions = [(os.POSIX_SPAWN_DUP2, self.source, 0),
                   (os.POSIX_SPAWN_DUP2, sink, 1)]
        begin = time.perf_counter()
        child = os.posix_spawn(self.command[0], self.command, os.environ,
                               file_actions=actions)
        _, status = os.waitpid(child, 0)
        end = time.perf_counter()
        if status != 0:
            sys.exit("%s ended with status %d" % (self.command[0], status))
        self.times.append(end - begin)


class Row:
    """The starts of program, select.c and xmllint, and the first columns."""

    def __init__(self, programs, folder, data, expression, listing):
        program, plain, xmllint = programs
        command = [xmllint, "--xpath", expression, "-"]
        self.starts = [Start([program], data, folder),
                       Start([plain], data, folder),
                       Start(command, listing, folder)]
        self.cells = []

    def medians(self):
        return [statistics.median(start.times) for start in self.starts]


def row_of_starting_alone(programs, folder):
    row = Row(programs, folder, b"", "count(//a)", b"<a/>")
    ours, plain, _ = [start.output() for start in row.starts]
    if ours != plain:
        sys.exit("the answers differ at the empty input")
    row.cells = ["start alone", "-", "-"]
    return row


def row_of_pair(programs, folder, text, count, listing):
    rule = text.decode()
    row = Row(programs, folder, text + b"\n" + listing, "count(%s)" % rule,
              listing)
    ours, plain, counted = [start.output() for start in row.starts]
    counted = counted.strip()
    if ours != plain or ours.splitlines()[-1] != b"selected " + counted:
        sys.exit("the answers differ at %d listing bytes and the rule %s"
                 % (len(listing), rule))
    row.cells = [str(len(listing)), str(count), counted.decode()]
    return row


def time_in_turns(rows, runs):
    """All rows and programs take turns, so that a busy spell of the machine
    falls on all of them alike; the order is drawn anew in each round, so that
    none always runs behind the same one."""
    r = random.Random(7)
    sink = os.open(os.devnull, os.O_WRONLY)
    for _ in range(runs):
        for row in r.sample(rows, len(rows)):
            for start in r.sample(row.starts, len(row.starts)):
                start.timed(sink)


def built_yardstick(folder):
    path = os.path.join(folder, "select")
    subprocess.run(["cc", "-O2", "-o", path, os.path.join(HERE, "select.c")],
                   check=True)
    return path


def filled_table(rows):
    """The cells of every row: COLUMNS, then NET_COLUMNS."""
    starting = rows[0].medians()
    return [row.cells + time_cells(row.medians(), starting) for row in rows]


def time_cells(medians, starting):
    ours, plain, xmllint = medians
    rests = [median - start for median, start in zip(medians, starting)]
    return (["%.3f" % (median * 1e3) for median in medians]
            + ["%.2f" % (ours / plain), "%.2f" % (ours / xmllint)]
            + [net_ratio(rests[0], rest) for rest in rests[1:]])


def net_ratio(ours, theirs):
    return "%.2f" % (ours / theirs) if min(ours, theirs) > LEAST else "-"


def print_plain(table):
    for cells in [COLUMNS + NET_COLUMNS] + table:
        print("  ".join(cell.rjust(len(column)) for cell, column
                        in zip(cells, COLUMNS + NET_COLUMNS)))


def print_markdown(table):
    rule = ["---:"] * len(COLUMNS)
    for cells in [COLUMNS, rule] + table:
        print("| %s |" % " | ".join(cells[:len(COLUMNS)]))


def cpu_model():
    with open("/proc/cpuinfo") as file:
        for line in file:
            if line.startswith("model name"):
                return line.split(":", 1)[1].strip()
    return "unknown CPU"


def version(*command):
    """The first line that the command prints; xmllint prints it as an error."""
    if shutil.which(command[0]) is None:
        return "no %s" % command[0]
    printed = subprocess.run(command, stdout=subprocess.PIPE,
                             stderr=subprocess.STDOUT).stdout
    return printed.decode().splitlines()[0]


def circumstances(runs):
    return "; ".join([cpu_model(), "medians of %d runs" % runs,
                      version("xmllint", "--version"),
                      version("cc", "--version"), version("rt", "version")])


def read_options():
    parser = argparse.ArgumentParser(
        description=__doc__, formatter_class=argparse.RawTextHelpFormatter)
    parser.add_argument("program", metavar="PROGRAM")
    parser.add_argument("runs", metavar="RUNS", type=int, nargs="?",
                        default=300)
    parser.add_argument("--markdown", action="store_true")
    return parser.parse_args()


def main():
    options = read_options()
    program = os.path.abspath(options.program)
    xmllint = shutil.which("xmllint")
    if xmllint is None:
        sys.exit("no xmllint; Debian has it in libxml2-utils")
    with tempfile.TemporaryDirectory() as folder:
        programs = program, built_yardstick(folder), xmllint
        rows = [row_of_starting_alone(programs, folder)]
        rows += [row_of_pair(programs, folder, *pair) for pair in pairs()]
        time_in_turns(rows, options.runs)
    table = filled_table(rows)
    print_plain(table)
    if options.markdown:
        print()
        print_markdown(table)
    print()
    print(circumstances(options.runs))


if __name__ == "__main__":
    main()
