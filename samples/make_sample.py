#!/usr/bin/env python3
"""Makes the sample image: the conversions of a tractor's gateway, and values to convert by them.

It writes crates/show_values/stdin, whose values the program show_values converts. Its image alone is samples/tractor.mdf, which the examples of
the C header, the Rust crate and the command convert by; samples/README.md says which conversion stands at which address in it. It is written from
document 01 and the MDF standard alone, with nothing but Python's own library, and uses none of the project's own code, so that the image says
nothing about it.

The image is 64 bytes of identification, then ##TX, ##MD and ##CC blocks one behind the other, each at a multiple of 8. Before it stand the
requests, numbers little-endian: how many in 8 bytes, then 72 bytes for each.
A request has eight bytes each for the conversion's address, the kind of the value (its place in KINDS), the value's 64 bits or the length of a
text, the visit limit, the room for a text answer, the width of the signal, and the number of the edition, these two 2^32 where it names none; then
the text, filled up with zeros to 16 bytes.
"""
import os
import struct

KINDS = ("unsigned", "signed", "float", "text", "other", "back")
TEXTS = ("text", "back")  # "back" is a text that is asked back from a value to text conversion
TYPES = ("identity", "linear", "rational", "formula", "table interpolated", "table nearest", "range to value", "value to text", "range to text",
         "text to value", "text to text", "bit groups")
NONE = 2 ** 32
HERE = os.path.dirname(os.path.abspath(__file__))

blocks = []  # (label, size in bytes, function of the addresses that gives the bytes)
conversions = []  # (label, type number, name, unit)
requests = []  # (label or address, bytes behind the address)


def padded(data):
    return data + bytes(-len(data) % 8)


def header(block_id, length, links):
    return struct.pack("<4s4xQQ", block_id, length, links)


def plain(block_id, text):
    """A text block: its bytes end in a zero, and zeros fill it up to a multiple of 8."""
    body = padded(text.encode() + b"\0")
    data = header(block_id, 24 + len(body), 0) + body
    blocks.append((text, len(data), lambda places: data))


def conversion(label, kind, name="", unit="", comment="", inverse="", refs=(), values=(), bounds=None, precision=0, flags=0, links=None):
    """A ##CC block. Links are given by the label of the block that they lead to; an empty label is NIL.

    A value is a float, or an int for 64 bits as they are. `links` puts another link count than the true one into the header.
    """
    words = [struct.pack("<Q", v) if isinstance(v, int) else struct.pack("<d", v) for v in values]
    size = 64 + 8 * len(refs) + (16 if bounds else 0) + 8 * len(words)

    def data(places):
        to = [places[x] if x else 0 for x in (name, unit, comment, inverse, *refs)]
        out = header(b"##CC", size, len(to) if links is None else links)
        out += struct.pack("<%dQ" % len(to), *to)
        out += struct.pack("<BBHHH", kind, precision, flags, len(refs), len(words))
        if bounds:
            out += struct.pack("<dd", *bounds)
        return out + b"".join(words)

    blocks.append((label, size, data))
    conversions.append((label, kind, name, unit))


def request(where, kind, value=0, limit=4096, room=4096, width=NONE, edition=NONE):
    """A value for the conversion with a label, or at an address. Limit and room are the usual ones if they are not given."""
    text = value.encode() if kind in TEXTS else b""
    bits = {"signed": "<q", "float": "<d"}.get(kind, "<Q")
    assert len(text) <= 16 and room <= 4096
    body = struct.pack("<Q", KINDS.index(kind)) + struct.pack(bits, len(text) if kind in TEXTS else value)
    requests.append((where, body + struct.pack("<QQQQ", limit, room, width, edition) + text.ljust(16, b"\0")))


for text in ("Engine hours", "h", "Torque", "Nm", "at the rear shaft", "Raw torque", "Fuel rate", "l/h", "Slip", "%", "100*(X1-0.3)/X1"):
    plain(b"##TX", text)
conversion("identity", 0, name="Engine hours", unit="h")
conversion("linear", 1, name="Torque", unit="Nm", comment="at the rear shaft", inverse="raw", values=(0.0, 0.125), precision=3, flags=1)
conversion("raw", 1, name="Raw torque", values=(0.0, 8.0))
conversion("rational", 2, name="Fuel rate", unit="l/h", values=(0.0, 1.0, 0.5, 0.0, 0.0, 3.0), bounds=(0.0, 60.5), precision=1, flags=3)
conversion("formula", 3, name="Slip", unit="%", refs=("100*(X1-0.3)/X1",))

for text in ("Tank level", "l", "Tank level steps", "Hitch position"):
    plain(b"##TX", text)
conversion("interpolated", 4, name="Tank level", unit="l", values=(0.0, 10.0, 10.0, 20.0, 20.0, 60.0))
conversion("nearest", 5, name="Tank level steps", unit="l", values=(0.0, 10.0, 10.0, 20.0, 20.0, 60.0))
# The flag that says a range is there, and no range.
conversion("ranges", 6, name="Hitch position", values=(0.0, 10.0, 1.0, 10.0, 20.0, 2.0, 9.0), flags=2)

for text in ("Gear", "Low", "PTO", "Transmission", "Oil temperature", "\u00b0C", "cold", "warm"):
    plain(b"##TX", text)
conversion("gear", 7, name="Gear", refs=("Low",), values=(2.0,))
conversion("oil", 1, name="Oil temperature", unit="\u00b0C", values=(-40.0, 0.5))
conversion("oil text", 8, name="Oil temperature", refs=("cold", "warm", "oil"), values=(0.0, 10.0, 10.0, 20.0))

for text in ("Lamp command", "off", "on", "Fault text", "E1", "oil pressure low", "E2", "battery low", "fault not known"):
    plain(b"##TX", text)
conversion("lamp", 9, name="Lamp command", refs=("off", "on"), values=(0.0, 1.0, -1.0))
conversion("fault", 10, name="Fault text", refs=("E1", "oil pressure low", "E2", "battery low", "fault not known"))
conversion("groups", 11, name="Transmission", refs=("gear", "PTO"), values=(3, 12))

plain(b"##TX", "Vendor scale")
plain(b"##MD", "<CCcomment/>")
conversion("vendor", 42, name="Vendor scale", comment="<CCcomment/>", refs=("", "<CCcomment/>", "damaged", "Vendor scale"),
           values=(0.1, -2.5, 1 / 3, -0.0, 1e-9, 0.99999999, 123456.789, 2.0 ** 53 - 1, -(2.0 ** 53), float("inf"), float("-inf"), float("nan")))
# A link count that no image holds: this one is refused.
conversion("damaged", 1, values=(0.0, 1.0), links=2 ** 60)

for text in ("Coolant", "Beacon colour", "amber", "blue", "Maker scale", "Seat switch"):
    plain(b"##TX", text)
# Two references to one block: it is visited twice, and is no loop.
conversion("coolant", 8, name="Coolant", unit="\u00b0C", refs=("oil", "oil"), values=(0.0, 100.0, 200.0, 300.0))
# No value for the second text, and no default.
conversion("beacon", 9, name="Beacon colour", refs=("amber", "blue"), values=(1.0,))
conversion("maker", 42, name="Maker scale", values=(2.0,))
# A loop of two.
conversion("seat", 7, name="Seat switch", refs=("seat again",), values=(1.0,))
conversion("seat again", 7, refs=("seat",), values=(1.0,))

for text in ("Hydraulic flow", "slow", "fast"):
    plain(b"##TX", text)
# The last range has no upper bound, so that the table is malformed: the first reference decides.
conversion("flow", 8, name="Hydraulic flow", refs=("slow", "fast"), values=(0.0, 10.0, 10.0))

for text in ("Implement status", "Hitch", "floating", "Valve", "open", "Alarm", "overload"):
    plain(b"##TX", text)
# A signed signal of 4 bits: the alarm's bits 4 and 5 are those of a signal that has more.
conversion("status hitch", 7, name="Hitch", refs=("floating",), values=(3.0,))
conversion("status valve", 7, name="Valve", refs=("open",), values=(12.0,))
conversion("status alarm", 7, name="Alarm", refs=("overload",), values=(48.0,))
conversion("status", 11, name="Implement status", refs=("status hitch", "status valve", "status alarm"), values=(3, 12, 48))

request("linear", "signed", -3)
request("linear", "unsigned", 8)
request("linear", "float", 2.5)
request("linear", "text", "no signal")
request("linear", "other")
request("identity", "unsigned", 1234)
request("rational", "unsigned", 4)
request("rational", "unsigned", 0)
request("formula", "unsigned", 5)
request("formula", "text", "no signal")
request("interpolated", "unsigned", 15)
request("interpolated", "float", 12.5)
request("interpolated", "signed", -1)
request("nearest", "unsigned", 15)
request("nearest", "unsigned", 16)
# An upper bound belongs to its range for an integer, and not for a float.
request("ranges", "unsigned", 10)
request("ranges", "float", 10.0)
request("ranges", "float", 20.0)
request("gear", "unsigned", 2)
request("gear", "unsigned", 3)
# A text back to its number, by the inverse of the conversion.
request("gear", "back", "Low")
request("gear", "back", "High")
request("seat", "back", "on")
request("linear", "back", "Low")
request("oil text", "unsigned", 10)
request("oil text", "float", 10.0)
request("oil text", "unsigned", 100)
request("coolant", "unsigned", 50)
request("coolant", "signed", -50)
request("flow", "unsigned", 15)
request("flow", "text", "no signal")
request("lamp", "text", "on")
request("lamp", "text", "blink")
request("lamp", "unsigned", 1)
request("beacon", "text", "amber")
request("beacon", "text", "blue")
request("fault", "text", "E1")
request("fault", "text", "E9")
request("fault", "unsigned", 1)
request("groups", "unsigned", 6)
request("groups", "unsigned", 0)
request("groups", "signed", -2)
request("groups", "float", 6.0)
request("groups", "unsigned", 6, room=14)
request("groups", "unsigned", 6, room=13)
request("groups", "unsigned", 6, limit=2)
request("groups", "unsigned", 6, limit=1)
# -1 has 4 bits here, and 64 where no width says so.
request("status", "signed", -1, width=4)
request("status", "signed", -1, width=64)
request("status", "signed", -1)
request("status", "signed", -5, width=4)
request("status", "signed", -1, width=65)
# Bit groups came with edition 4.20. A wrong edition is refused before a wrong width.
request("groups", "unsigned", 6, edition=420)
request("groups", "unsigned", 6, edition=410)
request("status", "signed", -1, width=4, edition=410)
request("groups", "unsigned", 6, edition=411)
request("status", "signed", -1, width=65, edition=411)
request("maker", "unsigned", 7)
request("vendor", "unsigned", 7)
request("seat", "unsigned", 1)
# The text "Engine hours", and no byte of the image.
request(64, "unsigned", 1)
request(1000000, "unsigned", 1)

places, at = {}, 64
for label, size, _ in blocks:
    assert label not in places, label
    places[label] = at
    at += size + -size % 8


def image_of(some):
    image = b"MDF     4.20    rattle  ".ljust(28, b"\0") + struct.pack("<H", 420)
    image = image.ljust(64, b"\0")
    for label, size, data in some:
        image += padded(data(places))
    return image


def write(path, data):
    with open(os.path.join(HERE, "..", path), "wb") as out:
        out.write(data)
    print(path, "has", len(data), "bytes")


def write_input(program, data):
    assert len(data) <= 65535
    write("crates/%s/stdin" % program, data)


# What README.md says of the conversions whose name and type do not say it.
REMARKS = {
    "raw": "the inverse of Torque",
    "ranges": "its flags tell of a range, and there is none",
    "oil": "the default of the range to text below",
    "groups": "its first group is Gear, at {gear}",
    "vendor": "leads to the damaged block below, so the check refuses: 4 Short at {damaged}",
    "damaged": "its link count is larger than any image: 4 Short",
    "coolant": "both references lead to {oil}, which counts as two visits",
    "beacon": "its second text has no value",
    "seat": "a loop with the next one: 6 Loop",
    "seat again": "a loop with the one before: 6 Loop",
    "status hitch": "the bits 0 and 1 of the bit groups below",
    "status valve": "the bits 2 and 3",
    "status alarm": "the bits 4 and 5, which a signal of 4 bits does not have",
    "status": "a signed signal of 4 bits: -1 shows no alarm at width 4",
    "flow": "its last range has no upper bound: a malformed table, and the first text for every number",
}


def type_name(kind):
    return "%d %s" % (kind, TYPES[kind] if kind < len(TYPES) else "unknown")


def row(label, kind, name, unit):
    remark = REMARKS.get(label, "").format(**places)
    return "| %d | %s | %s | %s | %s |" % (places[label], name, type_name(kind), unit, remark)


def readme(size):
    lines = ["# The sample image",
             "",
             "`tractor.mdf` is an image of %d bytes with the conversions of a tractor's gateway, at least one of each type." % size,
             "`make_sample.py` makes it, this page, and the input of the program `show_values`.",
             "",
             "| address | name | type | unit | remark |",
             "|---|---|---|---|---|"]
    lines += [row(*one) for one in conversions]
    return ("\n".join(lines) + "\n").encode()


image = image_of(blocks)
asked = struct.pack("<Q", len(requests))
for where, body in requests:
    asked += struct.pack("<Q", places.get(where, where)) + body
write_input("show_values", asked + image)
write("samples/tractor.mdf", image)
write("samples/README.md", readme(len(image)))
