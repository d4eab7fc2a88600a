"""Damaged copies of certificates and of blocks, drawn at random."""

import json
import random
import re


WORDS = ["gen", "meet", "f", "f0", "nu", "hm", "jonsson", "maltsev", "member", "", "é"]


def places(value, path=()):
    """The path of each value within a value of JSON."""
    yield path
    items = value.items() if isinstance(value, dict) else enumerate(value) if isinstance(value, list) else ()
    for key, inner in items:
        yield from places(inner, (*path, key))


def at(value, path):
    for key in path:
        value = value[key]
    return value


def changed_number(draw, number):
    """A number that is mostly another element or position, and now and then none."""
    if draw.random() < 0.15:
        return draw.choice([2**26 + 1, 2**32 - 1, 2**32, 2**64, -1, 1.5])
    return draw.choice([number + 1, max(number - 1, 0), draw.randrange(2), draw.randrange(8)])


def changed(draw, value):
    """Another value in its place."""
    if isinstance(value, bool) or value is None:
        return 0
    if isinstance(value, (int, float)):
        return draw.choice([str(value), [value], None, True]) if draw.random() < 0.15 else changed_number(draw, value)
    if isinstance(value, str):
        return draw.choice([*WORDS, 0, value + "x"])
    if isinstance(value, list):
        return with_items_changed(draw, value)
    return draw.choice([[], {}, 0, "member"])


def with_items_changed(draw, items):
    """A list with an item more or less, two exchanged, or none at all."""
    items = list(items)
    if not items:
        return draw.choice([[0], [[]], [[0]], [["gen", 0]], {}, 0])
    place = draw.randrange(len(items))
    kind = draw.randrange(8)
    if kind == 0:
        del items[place]
    elif kind == 1:
        items.insert(place, items[draw.randrange(len(items))])
    elif kind == 2:
        other = draw.randrange(len(items))
        items[place], items[other] = items[other], items[place]
    elif kind == 3:
        items.append(draw.choice([items[0], items[-1]] * 5 + [0, 1, 2, [0], ["gen", 0]]))
    elif kind == 4:
        items = items[:place]
    else:
        items[place] = changed(draw, items[place])
    return items


def with_value_changed(draw, cert):
    """A copy with one value changed: under each key as often as under another, and mostly a number."""
    copy = json.loads(json.dumps(cert))
    key = draw.choice(sorted(copy if draw.random() < 0.1 else copy.keys() - {"kind", "name"} or copy))
    found = [path for path in places(copy) if path[:1] == (key,)]
    numbers = [path for path in found if isinstance(at(copy, path), int)]
    path = draw.choice(numbers if numbers and draw.random() < 0.6 else found)
    at(copy, path[:-1])[path[-1]] = changed(draw, at(copy, path))
    return copy


def with_keys_changed(draw, cert):
    """A copy with a key left out, added, or by another name."""
    copy = dict(cert)
    key = draw.choice(sorted(copy))
    kind = draw.randrange(3)
    value = copy.pop(key) if kind != 1 else 0
    if kind:
        copy[draw.choice(["k", "name", "rows", "gens", "target", "width", "steps", "zz", "A", "ä"])] = value
    return copy


NUMBERS = ["-0", "1.0", "1e0", "1E2", "0.0", "00", "01", "+1", "1.", ".5", "1e400", "1e-400", "9" * 20, "9" * 400, "0x1"]
PIECES = [" ", "\t", "\r", ",", "]", "}", "{", '"', "\\", ":", "0", "- 1", "\x0b", "#", "é", "\x00"]
TAILS = ["x", "{}", " ", "\r", ","]
ESCAPES = ["\\u0067en", "g\\u0065n", "\\ud83d\\ude00", "\\ud83d", "\\udc00", "g\\/n", "\\x"]
DEPTHS = [2, 120, 125, 126, 127, 128, 129, 300]


def with_piece(draw, text):
    place = draw.randrange(len(text) + 1)
    return text[:place] + draw.choice(PIECES) + text[place:]


def without_piece(draw, text):
    place = draw.randrange(len(text))
    return text[:place] + text[place + 1 :]


def with_number(draw, text):
    begin, end = draw.choice([match.span() for match in re.finditer(r"\d+", text)] or [(0, 0)])
    return text[:begin] + draw.choice(NUMBERS) + text[end:]


def with_key_twice(draw, text):
    return text[:-1] + ',"width":1}' if draw.random() < 0.5 else '{"kind":"listing",' + text[1:]


def with_escape(draw, text):
    return text.replace("gen", draw.choice(ESCAPES), 1)


def with_depth(draw, text):
    depth = draw.choice(DEPTHS)
    return f'{text[:-1]},"{draw.choice(["zz", "kind"])}":{"[" * depth}{"]" * depth}}}'


def with_blanks(draw, text):
    return text.replace(",", draw.choice([" , ", ",\t", ",\r", ",,"]), 1)


def with_tail(draw, text):
    return text + draw.choice(TAILS)


TEXT_CHANGES = [with_piece, without_piece, with_number, with_key_twice, with_escape, with_depth, with_blanks, with_tail]


def damaged(draw, text):
    """A damaged copy of a certificate's text, on one line, as bytes."""
    cert = json.loads(text)
    kind = draw.random()
    if kind < 0.8:
        cert = with_value_changed(draw, cert)
        while draw.random() < 0.15:
            cert = with_value_changed(draw, cert) if isinstance(cert, dict) and cert else cert
        copy = json.dumps(cert, separators=(",", ":"))
    elif kind < 0.85:
        copy = json.dumps(with_keys_changed(draw, cert), separators=(",", ":"), ensure_ascii=draw.random() < 0.5)
    else:
        copy = draw.choice(TEXT_CHANGES)(draw, text)
    copy = copy.encode("utf-8", "surrogatepass").replace(b"\n", b" ")
    if draw.random() < 0.02:
        place = draw.randrange(1, len(copy) + 1)
        copy = copy[:place] + bytes([draw.randrange(128, 256)]) + copy[place:]
    return copy if copy.startswith(b"{") else b"{" + copy


TOKEN = re.compile(rb"\w+|[^\s\w]")
STRAYS = b"op end size algebra names version gen x0 0 1 7 = ( $ _".split() + [b"w" * 33]


def damaged_block(draw, block):
    """A block with one token more, less, twice, or another."""
    tokens = [match.span() for match in TOKEN.finditer(block)]
    begin, end = draw.choice(tokens)
    other = block[slice(*draw.choice(tokens))]
    kind = draw.randrange(6)
    middle = {
        0: b"",
        1: block[begin:end] + b" " + block[begin:end],
        2: draw.choice(STRAYS),
        3: draw.choice(STRAYS) + b" " + block[begin:end],
        4: other,
        5: block[begin:end] + draw.choice([b"#", b" # x\n", b"\r\n", b"x", b"\x00", b"\xc3"]),
    }[kind]
    return block[:begin] + middle + block[end:]


def draw_from(seed):
    return random.Random(seed)
