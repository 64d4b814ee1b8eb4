#!/usr/bin/env python3
"""What birdelectrum must print, worked out from the definition.

    reference.py < INPUT          prints the answer
    reference.py --self-check     tries the worked examples and the searches

Nothing here is shared with the program: refusals are looked for one by one
and the lowest place wins, the tree is kept whole, and a rule is tried at a
node by searching for an embedding. It is slow on purpose.
"""

import itertools
import random
import sys

MAX_INPUT = 65536
MAX_TEXT = 1024
MAX_TESTS = 64
MAX_BRACKETS = 16
MAX_NAME = 32
MAX_OPEN = 128

WHITE = b" \t\n\r"
NAME_START = b"abcdefghijklmnopqrstuvwxyzABCDEFGHIJKLMNOPQRSTUVWXYZ_"
NAME_BYTE = NAME_START + b"0123456789.-"


def name_end(data, at):
    """The end of the longest name at `at`, or `at` when none begins there."""
    if at >= len(data) or data[at] not in NAME_START:
        return at
    while at < len(data) and data[at] in NAME_BYTE:
        at += 1
    return at


# ---------------------------------------------------------------- rule texts

class Token:
    def __init__(self, kind, place, text=b""):
        self.kind = kind      # a literal token, "name", "stray" or "end"
        self.place = place
        self.text = text


def tokens(text):
    """The longest tokens of the text, then its end.

    A byte that begins no token is a token of its own, which no rule has.
    """
    found = []
    at = 0
    while True:
        while at < len(text) and text[at] in WHITE:
            at += 1
        if at == len(text):
            found.append(Token("end", at))
            return found
        after_name = name_end(text, at)
        if after_name > at:
            found.append(Token("name", at, text[at:after_name]))
            at = after_name
        elif text[at:at + 2] == b"//":
            found.append(Token("//", at))
            at += 2
        elif text[at] in b"/.[]*":
            found.append(Token(chr(text[at]), at))
            at += 1
        else:
            found.append(Token("stray", at))
            at += 1


# Every symbol derives something, so whatever is still expected after some
# tokens can be completed: tokens begin a rule text exactly when some
# derivation reads them.
GRAMMAR = {
    "TEXT": [["//", "STEP", "end"]],
    "STEP": [["TEST", "PREDICATES"]],
    "TEST": [["name"], ["*"]],
    "PREDICATES": [[], ["[", "PATH", "]", "PREDICATES"]],
    "PATH": [["STEP", "FURTHER"], [".", "//", "STEP", "FURTHER"]],
    "FURTHER": [[], ["/", "STEP", "FURTHER"], ["//", "STEP", "FURTHER"]],
}


def read_on(expected, kind):
    """All that may be expected after one more token of this kind.

    `expected` lists the possible remainders, each a linked list of symbols.
    """
    after = []
    todo = list(expected)
    while todo:
        remainder = todo.pop()
        if remainder is None:
            continue
        symbol, rest = remainder
        if symbol in GRAMMAR:
            for body in GRAMMAR[symbol]:
                longer = rest
                for part in reversed(body):
                    longer = (part, longer)
                todo.append(longer)
        elif symbol == kind:
            after.append(rest)
    return after


def offending(kinds):
    """The index of the first token with which no rule text begins, or None."""
    expected = [("TEXT", None)]
    for index, kind in enumerate(kinds):
        expected = read_on(expected, kind)
        if not expected:
            return index
    return None


def rule_refusal(text):
    """(number, place) of the refusal of a rule text, or None."""
    if not 1 <= len(text) <= MAX_TEXT:
        return 10, 0
    toks = tokens(text)
    found = []
    index = offending([token.kind for token in toks])
    if index is not None:
        found.append((11, toks[index].place))
    tests = [token for token in toks if token.kind in ("name", "*")]
    if len(tests) > MAX_TESTS:
        found.append((13, tests[MAX_TESTS].place))
    for token in toks:
        if token.kind == "name" and len(token.text) > MAX_NAME:
            found.append((12, token.place))
    open_brackets = 0
    for token in toks:
        if token.kind == "[":
            open_brackets += 1
            if open_brackets > MAX_BRACKETS:
                found.append((14, token.place))
        elif token.kind == "]":
            open_brackets -= 1
    if not found:
        return None
    rank = [11, 13, 12, 14]
    return min(found, key=lambda refusal: (refusal[1], rank.index(refusal[0])))


CHILD = "child"
DESCENDANT = "descendant"
ANY = None


class RuleNode:
    def __init__(self, test, parent, edge):
        self.test = test      # a name, or ANY
        self.parent = parent  # a number; None for the root
        self.edge = edge


def rule_nodes(text):
    """The rule nodes of a text that is not refused, as their tests stand."""
    nodes = []
    upper, edge = None, None  # where the next test will hang, and how
    step = None               # the step whose predicates or successor come
    holders = []              # the steps whose predicates are open
    for token in tokens(text):
        if token.kind in ("name", "*"):
            test = token.text if token.kind == "name" else ANY
            step = len(nodes)
            nodes.append(RuleNode(test, upper, edge))
        elif token.kind == "[":
            holders.append(step)
            upper, edge = step, CHILD
        elif token.kind == "]":
            step = holders.pop()
        elif token.kind == "/":
            upper, edge = step, CHILD
        elif token.kind == "//" and nodes:
            upper, edge = step, DESCENDANT
    return nodes


# ------------------------------------------------------------------ listings

class Node:
    def __init__(self, number, label):
        self.number = number
        self.label = label
        self.children = []


class Fault(Exception):
    def __init__(self, number, place):
        super().__init__(number, place)
        self.number = number
        self.place = place


class Listing:
    """The tree of a listing as far as it could be read, and its fault."""

    def __init__(self, data):
        self.data = data
        self.nodes = []
        self.closed = []      # in closing order
        self.open = []
        self.fault = None
        try:
            at = 0
            while at < len(data):
                at = self.read(at)
            if self.open or not self.nodes:
                raise Fault(31, len(data))
        except Fault as fault:
            self.fault = fault

    def byte(self, at):
        if at == len(self.data):
            raise Fault(31, at)
        return self.data[at]

    def opening(self, label):
        node = Node(len(self.nodes), label)
        if self.open:
            self.open[-1].children.append(node)
        self.nodes.append(node)
        self.open.append(node)

    def closing(self):
        self.closed.append(self.open.pop())

    def read(self, at):
        """Reads one text byte or one piece of markup; answers its end."""
        if self.data[at] != ord("<"):
            if not self.open and self.data[at] not in WHITE:
                raise Fault(30, at)
            return at + 1
        second = self.byte(at + 1)
        if second == ord("/"):
            return self.end_tag(at)
        if second == ord("!"):
            return self.comment(at)
        if second == ord("?"):
            return self.instruction(at)
        if second in NAME_START:
            return self.start_tag(at)
        raise Fault(30, at + 1)

    def comment(self, at):
        if self.data[at:at + 4] != b"<!--":
            raise Fault(34, at)
        dashes = self.data.find(b"--", at + 4)
        if dashes < 0:
            raise Fault(31, len(self.data))
        if self.byte(dashes + 2) != ord(">"):
            raise Fault(30, dashes + 2)
        return dashes + 3

    def instruction(self, at):
        mark = self.data.find(b"?>", at + 2)
        if mark < 0:
            raise Fault(31, len(self.data))
        return mark + 2

    def start_tag(self, at):
        if self.nodes and not self.open:
            raise Fault(30, at)
        if len(self.open) == MAX_OPEN:
            raise Fault(35, at)
        after = name_end(self.data, at + 1)
        name = self.data[at + 1:after]
        if len(name) > MAX_NAME:
            raise Fault(32, at + 1)
        if self.byte(after) == ord("/"):
            if self.byte(after + 1) != ord(">"):
                raise Fault(30, after + 1)
        elif self.byte(after) != ord(">") and self.byte(after) not in WHITE:
            raise Fault(30, after)
        end = after
        while self.byte(end) != ord(">"):
            if self.byte(end) == ord("<"):
                raise Fault(30, end)
            end += 1
        self.opening(name)
        if self.data[end - 1] == ord("/"):
            self.closing()
        return end + 1

    def end_tag(self, at):
        if self.byte(at + 2) not in NAME_START:
            raise Fault(30, at + 2)
        after = name_end(self.data, at + 2)
        name = self.data[at + 2:after]
        if len(name) > MAX_NAME:
            raise Fault(32, at + 2)
        if not self.open or self.open[-1].label != name:
            raise Fault(33, at + 2)
        end = after
        while self.byte(end) in WHITE:
            end += 1
        if self.byte(end) != ord(">"):
            raise Fault(30, end)
        self.closing()
        return end + 1


# ----------------------------------------------------------------- selection

class Search:
    """Looks for embeddings of a rule in the tree under a node.

    A rule is a tree, so the images of the rule nodes under one rule node can
    be chosen apart from all others. That is the only shortcut taken.
    """

    def __init__(self, rule):
        self.rule = rule
        self.lower = [[] for _ in rule]
        for number, rule_node in enumerate(rule):
            if rule_node.parent is not None:
                self.lower[rule_node.parent].append(number)
        self.known_here = {}
        self.known_below = {}

    def here(self, x, node):
        """Can x and the rule nodes under it be placed with x at this node?"""
        key = x, node.number
        if key not in self.known_here:
            self.known_here[key] = self.meets(x, node) and all(
                self.across(y, node) for y in self.lower[x])
        return self.known_here[key]

    def meets(self, x, node):
        return self.rule[x].test is ANY or self.rule[x].test == node.label

    def across(self, y, node):
        """Is there a place for y, across its edge, from this node?"""
        if self.rule[y].edge == CHILD:
            return any(self.here(y, child) for child in node.children)
        return self.below(y, node)

    def below(self, y, node):
        key = y, node.number
        if key not in self.known_below:
            self.known_below[key] = any(
                self.here(y, child) or self.below(y, child)
                for child in node.children)
        return self.known_below[key]


def occurs(rule, node):
    return Search(rule).here(0, node)


# --------------------------------------------------------------- the program

def answer(data):
    """What the program must print for this input."""
    def refused(number, place):
        return b"refused %d at %d\n" % (number, place)

    if len(data) > MAX_INPUT:
        return refused(50, MAX_INPUT)
    text, _, rest = data.partition(b"\n")
    refusal = rule_refusal(text)
    if refusal is not None:
        return refused(*refusal)
    listing = Listing(rest)
    search = Search(rule_nodes(text))
    numbers = [node.number for node in listing.closed if search.here(0, node)]
    printed = b"".join(b"%d\n" % number for number in numbers)
    if listing.fault is not None:
        return printed + refused(listing.fault.number, listing.fault.place)
    return printed + b"selected %d\n" % len(numbers)


# ---------------------------------------------------------------- self-check

NAME32 = b"n" * 32
NAME33 = b"n" * 33

# Rule texts and their refusals; None where the text is accepted.
TEXTS = [
    (b"//a", None),
    (b"//*", None),
    (b" // a [ . // b / c // * ] ", None),
    (b"//a[b.//c]", None),
    (b"//or[div][text]", None),
    (b"//_a-b.c9", None),
    (b"", (10, 0)),
    (b" " * 1021 + b"//a", None),
    (b" " * 1022 + b"//a", (10, 0)),
    (b"$" * 1025, (10, 0)),
    (b"   ", (11, 3)),
    (b"/a", (11, 0)),
    (b"a", (11, 0)),
    (b"//", (11, 2)),
    (b"///a", (11, 2)),
    (b"//a/b", (11, 3)),
    (b"//a//b", (11, 3)),
    (b"//a b", (11, 4)),
    (b"//9", (11, 2)),
    (b"//a]", (11, 3)),
    (b"//a[]", (11, 4)),
    (b"//a[//b]", (11, 4)),
    (b"//a[/b]", (11, 4)),
    (b"//a[./b]", (11, 5)),
    (b"//a[..//b]", (11, 5)),
    (b"//a[.b]", (11, 5)),
    (b"//a[.]", (11, 5)),
    (b"//a[.//]", (11, 7)),
    (b"//a[b", (11, 5)),
    (b"//a[b  ", (11, 7)),
    (b"//a[b/]", (11, 6)),
    (b"//a[b]]", (11, 6)),
    (b"//a[@b]", (11, 4)),
    (b"//text()", (11, 6)),
    (b"//" + NAME32, None),
    (b"//" + NAME33, (12, 2)),
    (b"//a " + NAME33, (11, 4)),
    (b"//a[" + NAME33 + b"$", (12, 4)),
    (b"//a" + b"[b]" * 63, None),
    (b"//a" + b"[b]" * 64, (13, 193)),
    (b"//a" + b"[b]" * 63 + b"[" + NAME33 + b"]", (13, 193)),
    (b"//a" + b"[b]" * 63 + b"b", (11, 192)),
    (b"//a" + b"[b]" * 63 + b"[", (11, 193)),
    (b"//a" + b"[b" * 16 + b"]" * 16, None),
    (b"//a" + b"[b" * 17 + b"]" * 17, (14, 35)),
    (b"//a" + b"[b" * 15 + b"[[", (11, 34)),
    (b"//a" + b"[b" * 16 + b"][b" + b"]" * 16, None),
    (b"//a" + b"[b" * 16 + b"/[", (11, 36)),
]

DEEP = b"<a>" * 128
NESTED = DEEP + b"</a>" * 128

# Listings and their faults; None where the listing is done.
LISTINGS = [
    (b"<a/>", None),
    (b" \t\r\n<?xml version='1.0'?><!-- x --><a>t</a><!----><?y?> \n", None),
    (b"<a>&x; ]]> \0 \xff > ' \" </a>", None),
    (b"", (31, 0)),
    (b"  ", (31, 2)),
    (b"<", (31, 1)),
    (b"<a", (31, 2)),
    (b"<a ", (31, 3)),
    (b"<a/", (31, 3)),
    (b"<a>", (31, 3)),
    (b"<a/><", (31, 5)),
    (b"<a/><1", (30, 5)),
    (b"<a/><b/>", (30, 4)),
    (b"<a/><b", (30, 4)),
    (b"<a/>x", (30, 4)),
    (b"x<a/>", (30, 0)),
    (b"\xef\xbb\xbf<a/>", (30, 0)),
    (b"<a/>\0", (30, 4)),
    (b"< a>", (30, 1)),
    (b"<>", (30, 1)),
    (b"<1>", (30, 1)),
    (b"<a:b/>", (30, 2)),
    (b"<a<", (30, 2)),
    (b"<a <", (30, 3)),
    (b"<a x='<'/>", (30, 6)),
    (b"<a/ >", (30, 3)),
    (b"<a//>", (30, 3)),
    (b"<a /b>", (31, 6)),
    (b"<a /b></a>", None),
    (b"<a / ></a>", None),
    (b"<a b=c/>", None),
    (b"<a //>", None),
    (b"<a\n/>", None),
    (b"<a x='>'/></a>", None),
    (b"<a></a \t\r\n>", None),
    (b"<a></a x>", (30, 7)),
    (b"<a></a/>", (30, 6)),
    (b"<a></ a>", (30, 5)),
    (b"<a></>", (30, 5)),
    (b"<a></", (31, 5)),
    (b"</", (31, 2)),
    (b"</>", (30, 2)),
    (b"</a", (33, 2)),
    (b"<a/></a>", (33, 6)),
    (b"<a></b", (33, 5)),
    (b"<a></a", (31, 6)),
    (b"<ab></a", (33, 6)),
    (b"<a></ab>", (33, 5)),
    (b"<a><b></a>", (33, 8)),
    (b"<!", (34, 0)),
    (b"<!-", (34, 0)),
    (b"<!->", (34, 0)),
    (b"<!DOCTYPE a><a/>", (34, 0)),
    (b"<a><![CDATA[x]]></a>", (34, 3)),
    (b"<a/><!", (34, 4)),
    (b"<!--", (31, 4)),
    (b"<!-->", (31, 5)),
    (b"<!--->", (31, 6)),
    (b"<!----", (31, 6)),
    (b"<!---->", (31, 7)),
    (b"<!--> --><a/>", None),
    (b"<!----->", (30, 6)),
    (b"<!-- -- --><a/>", (30, 7)),
    (b"<?>", (31, 3)),
    (b"<??>", (31, 4)),
    (b"<?><a/>?><a/>", None),
    (b"<a><b/>", (31, 7)),
    (b"<" + NAME32 + b"/>", None),
    (b"<" + NAME33 + b"/>", (32, 1)),
    (b"<" + NAME33, (32, 1)),
    (b"<a/><" + NAME33, (30, 4)),
    (b"<a></" + NAME33, (32, 5)),
    (b"</" + NAME33, (32, 2)),
    (NESTED, None),
    (DEEP + b"<a/>", (35, 384)),
    (DEEP + b"<" + NAME33, (35, 384)),
    (DEEP + b"<a", (35, 384)),
    (DEEP + b"<", (31, 385)),
    (DEEP + b"<1", (30, 385)),
    (DEEP + b"<!-- --><?x?>t</a>", (31, 384 + 18)),
]

# Whole inputs.
INPUTS = [
    (b"//a[b][.//c]\n<r><a><b/><d><c/></d></a><a><b/></a></r>",
     b"1\nselected 1\n"),
    (b"//a[a]\n<a><a><a/></a></a>", b"1\n0\nselected 2\n"),
    (b"//a[b][b]\n<a><b/></a>", b"0\nselected 1\n"),
    (b"//a[b[c][d]]\n<a><b><c/></b><b><d/></b></a>", b"selected 0\n"),
    (b"//a[b/c][b/d]\n<a><b><c/></b><b><d/></b></a>", b"0\nselected 1\n"),
    (b"//a[c]\n<a><b><c/></b></a>", b"selected 0\n"),
    (b"//a[.//c]\n<a><b><c/></b></a>", b"0\nselected 1\n"),
    (b"//a[.//a]\n<a/>", b"selected 0\n"),
    (b"//*[*]\n<a><b/><c><d/></c></a>", b"2\n0\nselected 2\n"),
    (b"", b"refused 10 at 0\n"),
    (b"\n<a/>", b"refused 10 at 0\n"),
    (b"//a", b"refused 31 at 0\n"),
    (b"//a[//b]\n<", b"refused 11 at 4\n"),
    (b"//a\r\n<a/>", b"0\nselected 1\n"),
    (b"//b\n<a><b/><b></a>", b"1\nrefused 33 at 12\n"),
    (b"//*\n" + NESTED,
     b"".join(b"%d\n" % n for n in reversed(range(128))) + b"selected 128\n"),
    (b"//a[.//a" + b"//a" * 62 + b"]\n" + NESTED,
     b"".join(b"%d\n" % n for n in reversed(range(65))) + b"selected 65\n"),
    (b"//a\n<a/>".ljust(65536), b"0\nselected 1\n"),
    (b"//a\n<a/>".ljust(65537), b"refused 50 at 65536\n"),
    (b"$".ljust(70000), b"refused 50 at 65536\n"),
]


def embedding_exists(rule, root):
    """The definition word for word: tries every mapping. For small trees."""
    nodes, above = [], {}

    def gather(node, upper):
        nodes.append(node)
        above[node.number] = upper
        for child in node.children:
            gather(child, upper + [node])

    gather(root, [])

    def holds(mapping):
        if mapping[0] is not root:
            return False
        for rule_node, image in zip(rule, mapping):
            if rule_node.test is not ANY and rule_node.test != image.label:
                return False
            if rule_node.parent is not None:
                upper = mapping[rule_node.parent]
                if rule_node.edge == CHILD and image not in upper.children:
                    return False
                if upper not in above[image.number]:
                    return False
        return True

    return any(map(holds, itertools.product(nodes, repeat=len(rule))))


def check_search(rounds):
    """The search against every mapping, on small random rules and trees."""
    r = random.Random(1)
    hits = 0
    for _ in range(rounds):
        rule = [RuleNode(r.choice([ANY, b"a", b"b"]), None, None)]
        for number in range(1, r.randint(1, 4)):
            rule.append(RuleNode(r.choice([ANY, b"a", b"b"]),
                                 r.randrange(number),
                                 r.choice([CHILD, DESCENDANT])))
        nodes = [Node(0, r.choice([b"a", b"b"]))]
        for number in range(1, r.randint(1, 6)):
            node = Node(number, r.choice([b"a", b"b"]))
            r.choice(nodes).children.append(node)
            nodes.append(node)
        for node in nodes:
            expected = embedding_exists(rule, node)
            hits += expected
            assert occurs(rule, node) == expected
    return hits


def check_beginnings(longest, complete):
    """Offending tokens against a plain list of the beginnings of rule texts.

    The list has every rule text of at most `complete` tokens, which covers
    all beginnings of at most `longest` tokens.
    """
    least = {"TEXT": 3, "STEP": 1, "TEST": 1, "PREDICATES": 0, "PATH": 1,
             "FURTHER": 0}
    beginnings = set()
    todo = [((), ("TEXT",))]
    while todo:
        done, left = todo.pop()
        if len(done) + sum(least.get(symbol, 1) for symbol in left) > complete:
            continue
        if not left:
            beginnings.update(done[:n] for n in range(len(done) + 1))
        elif left[0] in GRAMMAR:
            for body in GRAMMAR[left[0]]:
                todo.append((done, tuple(body) + left[1:]))
        elif left[0] != "name":  # a name stands wherever `*` does
            todo.append((done + (left[0],), left[1:]))
    kinds = ["//", "/", ".", "[", "]", "*", "stray", "end"]
    count = 0
    for length in range(longest + 1):
        for sequence in itertools.product(kinds, repeat=length):
            expected = next((n for n in range(length)
                             if sequence[:n + 1] not in beginnings), None)
            assert offending(sequence) == expected, sequence
            count += 1
    return count


def self_check():
    for text, expected in TEXTS:
        assert rule_refusal(text) == expected, (text, rule_refusal(text))
    for data, expected in LISTINGS:
        fault = Listing(data).fault
        found = fault and (fault.number, fault.place)
        assert found == expected, (data, found)
    for data, expected in INPUTS:
        assert answer(data) == expected, (data[:80], answer(data))
    sequences = check_beginnings(6, 11)
    hits = check_search(2000)
    print("%d texts, %d listings, %d inputs, %d token sequences, "
          "%d embeddings: all as expected"
          % (len(TEXTS), len(LISTINGS), len(INPUTS), sequences, hits))


if __name__ == "__main__":
    if sys.argv[1:] == ["--self-check"]:
        self_check()
    elif len(sys.argv) == 1:
        sys.stdout.buffer.write(answer(sys.stdin.buffer.read()))
    else:
        sys.exit(__doc__)
