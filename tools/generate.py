#!/usr/bin/env python3
"""Inputs for birdelectrum: a rule text, a line end and an XML listing.

    generate.py SEED > INPUT

One seed always gives the same input. Many inputs are good; the others are
damaged or stand right at a limit, so that every refusal comes up often.
"""

import random
import sys

NAMES = [b"a", b"b", b"c", b"d"]
# Names that are told apart only by case, length or the last byte.
LIKE_NAMES = [b"A", b"ab", b"a.", b"a-b", b"_", b"_1", b"abcdefgh",
              b"abcdefghi", b"x" * 31, b"x" * 32, b"x" * 31 + b"y"]
BYTES = b"<<<>>>//!?--[[]]**.. \t\r\nabcd_A19:=\"'&;()@|\x00\x7f\x80\xc3\xff"
SPACES = [b" ", b"\t", b"\r", b"  ", b" \t "]


def chance(r, p):
    return r.random() < p


# --------------------------------------------------------------------- trees

class Tree:
    def __init__(self, label):
        self.label = label
        self.children = []


def a_name(r, odd=0.03):
    return r.choice(LIKE_NAMES) if chance(r, odd) else r.choice(NAMES)


def a_tree(r, count, name=a_name, deepest=100):
    """A tree of `count` nodes, sometimes slender, sometimes broad."""
    root = Tree(name(r))
    nodes = [(root, 1)]
    slender = r.choice([0.0, 0.3, 0.6, 0.9])
    while len(nodes) < count:
        upper, depth = nodes[-1] if chance(r, slender) else r.choice(nodes)
        if depth < deepest:
            node = Tree(name(r))
            upper.children.append(node)
            nodes.append((node, depth + 1))
    return root


def a_chain(r, count, name=a_name):
    root = node = Tree(name(r))
    for _ in range(count - 1):
        node.children.append(Tree(name(r)))
        node = node.children[0]
    return root


def all_nodes(tree):
    found = [tree]
    for node in found:
        found.extend(node.children)
    return found


# ------------------------------------------------------------------ listings

GOOD_CONTENT = [
    b"text", b" ", b"\n", b"\t", b"\r\n", b"&amp;", b"]]>", b">", b"'\"",
    b"\x00", b"\xff\x80", b"a/b", b"--", b"-->", b"?>", b"//a[b]",
    b"<!-- x -->", b"<!---->", b"<!-- <a> </b> - -->", b"<!-->-->",
    b"<!---> -->", b"<?x?>", b"<??>", b"<?><?>", b"<?a <b> ??>",
]
GOOD_OUTSIDE = [
    b" ", b"\n", b"\r\n\t", b"<!-- x -->", b"<!---->", b"<!--> <a> -->",
    b"<?xml version='1.0'?>", b"<??>", b"<?> </b> ?>",
]
GOOD_INSIDE_TAG = [
    b" ", b"\n", b"\t", b"\r", b" x='1'", b' x="a b"', b" /b", b" / ",
    b"\n\ty='/'", b" b=c", b" \x00\xff", b" =!?-",
]


def pieces(r, tree, plain=False):
    """The listing of a tree as a list of texts and whole markup."""
    out = []
    decorated = 0.0 if plain else r.choice([0.0, 0.1, 0.4])

    def content(choices):
        while chance(r, decorated):
            out.append(r.choice(choices))

    def inside():
        return r.choice(GOOD_INSIDE_TAG) if chance(r, decorated) else b""

    def element(node):
        if not node.children and chance(r, 0.6):
            between = inside()
            out.append(b"<" + node.label + between + b"/>")
            return
        between = inside()
        out.append(b"<" + node.label + between + b">")
        content(GOOD_CONTENT)
        for child in node.children:
            element(child)
            content(GOOD_CONTENT)
        white = r.choice([b" ", b"\n", b"\t\r "])
        out.append(b"</" + node.label
                   + (white if chance(r, decorated) else b"") + b">")

    content(GOOD_OUTSIDE)
    element(tree)
    content(GOOD_OUTSIDE)
    return out


def a_listing(r, tree=None):
    return b"".join(pieces(r, tree or a_tree(r, r.choice([1, 3, 8, 20, 40]))))


# --------------------------------------------------------------------- rules

class Rule:
    def __init__(self, test):
        self.test = test
        self.lower = []       # pairs of an edge token and a Rule


def a_test(r, label, loose=0.2):
    return b"*" if chance(r, loose) else label


def random_rule(r, count):
    root = Rule(a_test(r, a_name(r)))
    nodes = [root]
    while len(nodes) < count:
        node = Rule(a_test(r, a_name(r)))
        r.choice(nodes[-6:]).lower.append((r.choice([b"/", b"//"]), node))
        nodes.append(node)
    return root


def grown_rule(r, tree, count, loose=0.2):
    """A rule that occurs at the root of the tree, of at most `count` nodes."""
    root = Rule(a_test(r, tree.label, loose))
    placed = [(root, tree, 0)]
    for _ in range(8 * count):
        if len(placed) == count:
            break
        upper, image, depth = r.choice(placed)
        if depth == 14 or not image.children:
            continue
        edge = r.choice([b"/", b"//"])
        image = r.choice(image.children)
        while edge == b"//" and image.children and chance(r, 0.6):
            image = r.choice(image.children)
        node = Rule(a_test(r, image.label, loose))
        upper.lower.append((edge, node))
        placed.append((node, image, depth + 1))
    return root


def rule_tokens(r, rule, further=0.5):
    """The tokens of a rule text; `further` is the share of further steps."""
    out = [b"//"]

    def step(node, in_path):
        out.append(node.test)
        last = len(node.lower)
        if in_path and node.lower and chance(r, further):
            last -= 1
        for edge, lower in node.lower[:last]:
            out.append(b"[")
            if edge == b"//":
                out.extend([b".", b"//"])
            step(lower, True)
            out.append(b"]")
        for edge, lower in node.lower[last:]:
            out.append(edge)
            step(lower, True)

    step(rule, False)
    return out


def spaced(r, tokens):
    """The tokens as one text, in some cases with white space around them."""
    often = r.choice([0.0, 0.0, 0.0, 0.1, 0.4])
    out = []
    for token in tokens:
        if chance(r, often):
            out.append(r.choice(SPACES))
        out.append(token)
    if chance(r, often):
        out.append(r.choice(SPACES))
    return b"".join(out)


def a_rule(r, tree=None):
    """A good rule; mostly one that occurs somewhere in the tree."""
    count = r.choice([1, 1, 2, 2, 3, 4, 5, 8, 12])
    if tree is not None and chance(r, 0.7):
        inner = [node for node in all_nodes(tree) if node.children] or [tree]
        rule = grown_rule(r, r.choice(inner), count)
    else:
        rule = random_rule(r, count)
    return spaced(r, rule_tokens(r, rule))


def small_tree(r):
    return a_tree(r, r.choice([1, 2, 4, 8, 15, 30, 60]))


# -------------------------------------------------------------------- damage

def damaged(r, data, times=None):
    """Bytes replaced, inserted, deleted, doubled or swapped, or cut off."""
    data = bytearray(data)
    for _ in range(times or r.choice([1, 1, 1, 2, 3])):
        at = r.randrange(len(data) + 1)
        how = r.randrange(6)
        if how == 0:
            data[at:at] = [r.choice(BYTES)]
        elif how == 1:
            data[at:at + 1] = [r.choice(BYTES)]
        elif how == 2:
            del data[at:at + r.choice([1, 1, 2, 5])]
        elif how == 3:
            data[at:at] = data[at:at + r.randint(1, 6)]
        elif how == 4:
            data[at:at + 2] = data[at:at + 2][::-1]
        elif chance(r, 0.3):
            del data[at:]
    return bytes(data)


def without_line_end(text):
    """The rule text must stay one line for the rest to stay the listing."""
    return text.replace(b"\n", b" ")


# --------------------------------------------------------------- kinds: good

def good(r):
    tree = small_tree(r)
    return a_rule(r, tree) + b"\n" + a_listing(r, tree)


def good_large_rule(r):
    tree = a_tree(r, r.choice([60, 200]), lambda r: a_name(r, 0), 20)
    rule = grown_rule(r, tree, r.choice([16, 32, 48, 64]))
    return (b"".join(rule_tokens(r, rule)) + b"\n" + a_listing(r, tree))


def good_large_listing(r):
    tree = a_tree(r, r.choice([1000, 4000]), lambda r: a_name(r, 0), 128)
    listing = b"".join(pieces(r, tree, plain=True))
    return a_rule(r, tree) + b"\n" + listing


def good_flat(r):
    """More numbers than any small store holds, up to the most possible."""
    rule = r.choice([b"//*", b"//a", b"//*[a]", b"//r[.//a]", b"//b"])
    count = r.choice([63, 64, 65, 128, 1000, 65536])
    count = min(count, (65536 - len(rule + b"\n<r></r>")) // 4)
    return rule + b"\n<r>" + b"<a/>" * count + b"</r>"


def good_chain_rule(r):
    """Rules deeper than the brackets allow, by further steps."""
    tree = a_chain(r, r.choice([10, 40, 64, 127, 128]))
    count = r.choice([5, 17, 40, 63, 64])
    rule = lowest = Rule(b"*")
    for _ in range(count - 1):
        lowest.lower.append((r.choice([b"/", b"//", b"//"]),
                             Rule(a_test(r, a_name(r, 0), 0.6))))
        lowest = lowest.lower[0][1]
    return (b"".join(rule_tokens(r, rule, 1.0)) + b"\n"
            + b"".join(pieces(r, tree, plain=True)))


# --------------------------------------------------------- kinds: rule texts

FIXED_RULES = [
    b"/a", b"a", b"*", b".", b"[", b"]", b"/", b"//", b"///a", b"////a",
    b"/ /a", b"// a", b" //a ", b"//a//b", b"//a/b", b"//a]", b"//a[]",
    b"//a[b]]", b"//a[b][c", b"//a[b", b"//a[", b"//a[//b]", b"//a[/b]",
    b"//a[./b]", b"//a[..//b]", b"//a[..]", b"//a[../b]", b"//..", b"//a..",
    b"//a[b/..]", b"//a[...//b]", b"//a[.//]", b"//a[.]", b"//a[.b]",
    b"//a[.*]", b"//a[ . // b ]", b"//a[. / / b]", b"//a[b.//c]",
    b"//a[b .//c]", b"//a[b/.//c]", b"//a[b/]", b"//a[b//]", b"//a[b///c]",
    b"//a[b/c//d]", b"//a[b//c/d]", b"//a[b[c]/d]", b"//a[.//b[c]//d][e]",
    b"//a b", b"//1a", b"//-a", b"//.a", b"//a.", b"//a.b-c_1", b"//@a",
    b"//a[@b]", b"//a[b or c]", b"//or[div][text]", b"//text()", b"//a[1]",
    b"//*[*]", b"//**", b"//* *", b"//*a", b"//a*", b"//\xc3\xa9", b"//a\xff",
    b"//a\x00", b"\x00", b" ", b"\t\r ", b"//a[b]c", b"//a[b]/c", b"//a[b].",
    b"//a[[b]]", b"//a[b c]", b"//a|b", b"//a[b\x0bc]", b"//a\x0c",
    b"//child::a", b"//a[b=c]", b"//a[not(b)]", b"//a[b and c]",
    b"//a[./ /b]", b"//a[.// b//c[d/*]]", b"//a[*][.//*]",
]


def fixed_rule(r):
    return r.choice(FIXED_RULES) + b"\n" + a_listing(r)


def rule_bytes_damaged(r):
    tree = small_tree(r)
    text = without_line_end(damaged(r, a_rule(r, tree)))
    return text + b"\n" + a_listing(r, tree)


def rule_tokens_damaged(r):
    tree = small_tree(r)
    tokens = rule_tokens(r, random_rule(r, r.randint(1, 6)))
    for _ in range(r.choice([1, 1, 2])):
        at = r.randrange(len(tokens) + 1)
        other = r.choice([b"//", b"/", b".", b"[", b"]", b"*", b"a", b"$"])
        how = r.randrange(4)
        if how == 0:
            tokens[at:at] = [other]
        elif how == 1:
            tokens[at:at + 1] = [other]
        elif how == 2:
            del tokens[at:at + 1]
        else:
            del tokens[at:]
    between = r.choice([b"", b"", b" "])
    return between.join(tokens) + b"\n" + a_listing(r, tree)


def rule_cut(r):
    tree = small_tree(r)
    text = a_rule(r, tree)
    return text[:r.randrange(len(text) + 1)] + b"\n" + a_listing(r, tree)


def rule_tests_limit(r):
    """63 to 66 tests, in one of several shapes, some with a bad last one."""
    count = r.choice([63, 64, 64, 65, 65, 65, 66])
    last = r.choice([b"a", b"*", b"n" * 32, b"n" * 33, b"n" * 33, b"", b"$"])
    shape = r.randrange(4)
    if shape == 0:
        text = b"//*" + b"[a]" * (count - 2) + b"[" + last + b"]"
    elif shape == 1:
        text = b"//*[.//*" + b"/*" * (count - 3) + b"//" + last + b"]"
    elif shape == 2:
        text = b"//*" + b"[*/a]" * ((count - 2) // 2)
        text += b"[*]" * (count % 2) + b"[" + last + b"]"
    else:
        text = b"".join(rule_tokens(r, random_rule(r, count), 0.8))
    tree = a_chain(r, 70) if chance(r, 0.5) else small_tree(r)
    return text + b"\n" + a_listing(r, tree)


def rule_brackets_limit(r):
    """15 to 18 open brackets, some reached again after closing."""
    count = r.choice([15, 16, 16, 17, 17, 17, 18])
    opening = r.choice([b"[*", b"[a", b"[.//*", b"[ * ", b"[*[a]", b"[*/*"])
    text = b"//*" + opening * (count - 1)
    text += r.choice([opening, opening, b"[", b"[[", b"/[", b"[*]",
                      b"[*][*][*", b"[" + b"n" * 33])
    opened = text.count(b"[") - text.count(b"]")
    text += b"]" * (opened + r.choice([0, 0, 0, 0, -1, 1]))
    return text + b"\n" + a_listing(r, a_chain(r, 40))


def rule_name_limit(r):
    name = b"n" * r.choice([31, 32, 32, 33, 33, 33, 34, 200])
    if chance(r, 0.3):
        name = name[:-1] + r.choice([b".", b"-", b"9", b"_", b"N"])
    text = r.choice([b"//%s", b"//a[%s]", b"//a[.//%s]", b"//a[b/%s", b"//a %s",
                     b"//%s[%%", b"//a[b]%s", b"%s", b"//a[$%s]",
                     b"//*[%s]"]).replace(b"%s", name)
    leaf = b"<" + name[:32] + b"/>"
    return text + b"\n<a><b>" + leaf + b"</b>" + leaf + b"</a>"


def rule_length_limit(r):
    length = r.choice([1023, 1024, 1024, 1025, 1025, 1026, 3000])
    start = r.choice([b"//a", b"//*[a]", b"//*[a", b"//a b", b""])
    how = r.randrange(4)
    if how == 0:
        text = start.ljust(length)
    elif how == 1:
        text = start.rjust(length)
    elif how == 2:
        text = b"//*" + (b"[" + b"n" * 30 + b"]") * 32
        text = text[:length].ljust(length)
    else:
        text = b"//a" + b" " * (length - 6) + b"[b]"
    return text + b"\n" + a_listing(r)


def rule_soup(r):
    parts = [b"//", b"/", b".", b"[", b"]", b"*", b"a", b" ", b"b"]
    text = b"".join(r.choice(parts) for _ in range(r.randint(0, 6)))
    start = r.choice([b"", b"//", b"//a", b"//a[", b"//a[b", b"//a[.//b"])
    return start + text + b"\n" + a_listing(r)


# ----------------------------------------------------------- kinds: listings

ODD_MARKUP = [
    b"<!-->", b"<!--->", b"<!---->", b"<!----->", b"<!------>", b"<!-- -- -->",
    b"<!--x--", b"<!--x-", b"<!--", b"<!-- -->", b"<!-- --->", b"<!", b"<!-",
    b"<!->", b"<!-a-->", b"<!>", b"<!a", b"<! -- -->", b"<!DOCTYPE a>",
    b"<!DOCTYPE a [<!ELEMENT a ANY>]>", b"<![CDATA[x]]>", b"<![CDATA[",
    b"<?>", b"<??>", b"<???>",
    b"<?", b"<?x", b"<?x?", b"<? ?>", b"<a/ >", b"<a//>", b"<a /b>", b"<a / >",
    b"<a b=c/>", b"<a //>", b"<a b='<'/>", b"<a b='>'/>", b"<a/", b"<a", b"<a ",
    b"<a/b>", b"<a/<", b"<a<b/>", b"<a <b/>", b"<a>", b"<a >", b"<a\n/>",
    b"< a>", b"<>", b"<", b"<<a/>", b"</", b"</>", b"</ a>", b"</a >",
    b"</a\t\r\n>", b"</a x>", b"</a/>", b"</a", b"</1>", b"</a<", b"<1>",
    b"<-a>", b"<.a/>", b"<:a>", b"<a:b>", b"<a=b/>", b"<\x00>", b"<\xff>",
    b"<a\x00/>", b"<a\xc3\xa9/>", b"<a \x00\xff/>", b"<a'/>", b"<a\x0b/>",
    b"&amp;", b"]]>", b"\x00", b"\xef\xbb\xbf", b"x", b"<b></b>", b"<b></a>",
    b"</b>", b"<" + b"n" * 32 + b"/>", b"<" + b"n" * 33 + b"/>",
    b"<" + b"n" * 33, b"</" + b"n" * 33, b"</" + b"n" * 33 + b">",
]


def with_rule(r, tree, parts):
    return a_rule(r, tree) + b"\n" + b"".join(parts)


def listing_bytes_damaged(r):
    tree = small_tree(r)
    return a_rule(r, tree) + b"\n" + damaged(r, a_listing(r, tree))


def odd_markup(r):
    """Odd markup between the pieces, in some cases with the rest cut off."""
    tree = small_tree(r)
    parts = pieces(r, tree)
    for _ in range(r.choice([1, 1, 1, 2])):
        at = r.randrange(len(parts) + 1)
        parts.insert(at, r.choice(ODD_MARKUP))
        if chance(r, 0.2):
            del parts[at + 1:]
    return with_rule(r, tree, parts)


def pieces_damaged(r):
    """Whole tags left out, doubled or swapped."""
    tree = small_tree(r)
    parts = pieces(r, tree)
    for _ in range(r.choice([1, 1, 2])):
        at, other = r.randrange(len(parts)), r.randrange(len(parts))
        how = r.randrange(3)
        if how == 0:
            parts[at:at + 1] = []
        elif how == 1:
            parts.insert(other, parts[at])
        else:
            parts[at], parts[other] = parts[other], parts[at]
        if not parts:
            break
    return with_rule(r, tree, parts)


def wrong_end_tag(r):
    tree = small_tree(r)
    parts = pieces(r, tree)
    ends = [n for n, part in enumerate(parts) if part.startswith(b"</")]
    if ends:
        at = r.choice(ends)
        name = parts[at][2:-1].strip()
        parts[at] = r.choice([
            b"</" + name + b"x>", b"</" + name + b"x", b"</" + name[:-1] + b">",
            b"</" + name.swapcase() + b">", b"</" + a_name(r, 0.5) + b">",
            b"</" + name, b"</" + name + b" ", b"</" + name + b" /x>",
            b"</" + b"n" * r.choice([32, 33]) + b">", b"</ " + name + b">",
            parts[at] + parts[at], b"", b"</" + name + b"\x00>"])
        if chance(r, 0.2):
            del parts[at + 1:]
    return with_rule(r, tree, parts)


AT_THE_LOWEST = [
    b"", b"<a/>", b"<a/>", b"<a></a>", b"<a", b"<a ", b"<a/x", b"<a<",
    b"<" + b"n" * 32 + b"/>", b"<" + b"n" * 33 + b"/>",
    b"<" + b"n" * 33, b"<" + b"n" * 33 + b" ", b"<", b"<1", b"<>", b"<!", b"<!-- -->", b"<?x?>", b"text", b"</", b"</>",
    b"</zz>", b"</" + b"n" * 33,
]


def depth_limit(r):
    """127 to 130 levels, and all sorts of things at the lowest."""
    count = r.choice([127, 128, 128, 128, 128, 129, 129, 130])
    names = [a_name(r) for _ in range(count)]
    opening = [b"<" + name + b">" for name in names]
    closing = [b"</" + name + b">" for name in reversed(names)]
    if chance(r, 0.2):
        closing = []
    for _ in range(r.choice([0, 2, 5])):
        opening.insert(r.randint(1, 120), r.choice([b"<b/>", b"<b><a/></b>"]))
    rule = r.choice([b"//*", b"//a", b"//b", b"//*[*/*]", b"//a[.//b]"])
    lowest = [r.choice(AT_THE_LOWEST)]
    return rule + b"\n" + b"".join(opening + lowest + closing)


def depth_again(r):
    """All levels left and reached again by a second branch."""
    def down(count):
        return [b"<a>"] * count, [b"</a>"] * count

    one, two = down(127), down(r.choice([126, 127, 127, 128]))
    text = r.choice([b"//a[a][.//a]", b"//r[a]", b"//*"])
    return text + b"\n" + b"".join(
        [b"<r>"] + one[0] + one[1] + two[0] + two[1] + [b"</r>"])


def xml_name_limit(r):
    name = b"n" * r.choice([31, 32, 32, 33, 33, 34, 300])
    if chance(r, 0.5):
        name = name[:-1] + r.choice([b".", b"-", b"9", b"_", b"N", b":"])
    tags = [b"<%s/>", b"<%s></%s>", b"<%s", b"<%s ", b"<%s x='y'></%s >",
            b"</%s", b"</%s>", b"<%s></%sn>", b"<%sn></%s>", b"<%s<"]
    inner = r.choice(tags).replace(b"%s", name)
    listing = r.choice([b"%s", b"<a>%s</a>", b"<a><b/>%s</a>", b"<a/>%s",
                        b"<a>%s"]).replace(b"%s", inner)
    rule = r.choice([b"//*", b"//" + name[:32], b"//a[*]", b"//a[b]"])
    return without_line_end(rule) + b"\n" + listing


def outside_root(r):
    tree = small_tree(r)
    odd = b"".join(r.choice(ODD_MARKUP + GOOD_OUTSIDE)
                   for _ in range(r.randint(1, 3)))
    listing = a_listing(r, tree)
    if chance(r, 0.7):
        listing = listing + odd
    else:
        listing = odd + listing
    return a_rule(r, tree) + b"\n" + listing


def listing_cut(r):
    tree = small_tree(r)
    listing = a_listing(r, tree)
    at = r.randrange(len(listing) + 1)
    return a_rule(r, tree) + b"\n" + listing[:at]


def markup_cut(r):
    """A listing that ends inside a piece of markup."""
    markup = r.choice([b"<!-- x -->", b"<!---->", b"<!--->-->", b"<?x y?>",
                       b"<??>", b"<a b='c'/>", b"<a />", b"<a/>", b"<a >",
                       b"</a >", b"</a>", b"</b>", b"<!DOCTYPE a>"])
    before = r.choice([b"", b" ", b"<a>", b"<a><b/>", b"<a>text", b"<a/>",
                       b"<b><a></a></b>\n"])
    rule = r.choice([b"//*", b"//a", b"//b"])
    return rule + b"\n" + before + markup[:r.randint(1, len(markup))]


def listing_soup(r):
    """Short listings out of few bytes: odd meetings of markup."""
    parts = [b"<", b"<", b">", b"/", b"a", b"!", b"-", b"--", b"?", b" ", b"\n",
             b"<a>", b"</a>", b"<a/>", b"<!--", b"-->", b"<?", b"?>"]
    body = b"".join(r.choice(parts) for _ in range(r.randint(0, 8)))
    start = r.choice([b"", b"", b"<a>", b"<a><b/>", b"<a", b"<a></a", b"<a/>",
                      b"<!--", b"<?"])
    end = r.choice([b"", b"", b"</a>", b">", b"-->", b"?>"])
    return b"//*\n" + start + body + end


# -------------------------------------------------------- kinds: whole input

def size_limit(r):
    """Inputs right at the size limit, filled up in several ways."""
    size = r.choice([65535, 65536, 65536, 65537, 65537, 65538, 70000, 200000])
    rule = r.choice([b"//*", b"//a[b]", b"//a[b", b"//a"])
    left, right = r.choice([(b"<a><b/>", b"</a>"), (b"<a ", b"/>"),
                            (b"<a><!--", b"--></a>"), (b"<a><?", b"?></a>"),
                            (b"<a>", b"<b/></a>"), (b"<a/>", b""),
                            (b"<a>", b"</b>"), (b"<a>", b"<b"), (b"<a", b">"),
                            (b"", b"<a/>")])
    fill = size - len(rule) - 1 - len(left) - len(right)
    filling = r.choice([b" ", b" ", b"\n", b"x", b"<b/>", b"-", b"?"])
    middle = (filling * (fill // len(filling) + 1))[:fill]
    if filling == b"<b/>":
        middle = filling * (fill // 4) + b" " * (fill % 4)
    return rule + b"\n" + left + middle + right


def no_line_end(r):
    tree = small_tree(r)
    return r.choice([
        b"", b"\n", b"\n\n", b"\n" + a_listing(r), b"//a", a_rule(r, tree),
        a_rule(r, tree) + b"\n", r.choice(FIXED_RULES), b"\r\n", b" ",
        a_rule(r, tree) + a_listing(r, tree),
        a_rule(r, tree) + b"\r\n" + a_listing(r, tree),
        a_rule(r, tree) + b"\n \n\n"])


def whole_damaged(r):
    tree = small_tree(r)
    return damaged(r, a_rule(r, tree) + b"\n" + a_listing(r, tree), 2)


def noise(r):
    start = r.choice([b"", b"//*\n", b"//*\n<a>"])
    return start + bytes(r.choice(BYTES) for _ in range(r.randint(0, 60)))


KINDS = [
    (good, 300), (good_large_rule, 20), (good_large_listing, 6),
    (good_flat, 6), (good_chain_rule, 15),
    (fixed_rule, 50), (rule_bytes_damaged, 50), (rule_tokens_damaged, 50),
    (rule_cut, 20), (rule_tests_limit, 40), (rule_brackets_limit, 40),
    (rule_name_limit, 40), (rule_length_limit, 20), (rule_soup, 30),
    (listing_bytes_damaged, 60), (odd_markup, 80), (pieces_damaged, 30),
    (wrong_end_tag, 40), (depth_limit, 40), (depth_again, 6),
    (xml_name_limit, 40), (outside_root, 40), (listing_cut, 30),
    (markup_cut, 40), (listing_soup, 60),
    (size_limit, 14), (no_line_end, 14), (whole_damaged, 20), (noise, 20),
]


def case(seed):
    """The input with this seed."""
    r = random.Random(seed)
    kinds, weights = zip(*KINDS)
    return r.choices(kinds, weights)[0](r)


if __name__ == "__main__":
    if len(sys.argv) != 2:
        sys.exit(__doc__)
    sys.stdout.buffer.write(case(int(sys.argv[1])))
