#!/usr/bin/env python3
# Derives a session of the program box from the rules alone, step by step: no code of the repository is used.
# bench/session.py IN OUT writes what the box reads and what it must print; crates/router_box/stdin and stdout are these.
import sys


def number(width, x):
    return x.to_bytes(width, "big")


# CRC-32C bit by bit, low byte first behind the bytes.
def sealed(body):
    crc = 0xFFFFFFFF
    for byte in body:
        crc ^= byte
        for _ in range(8):
            crc = (crc >> 1) ^ (0x82F63B78 if crc & 1 else 0)
    return body + (crc ^ 0xFFFFFFFF).to_bytes(4, "little")


# The Internet sum of an even number of bytes.
def internet_sum(body):
    total = sum(int.from_bytes(body[at : at + 2], "big") for at in range(0, len(body), 2))
    while total >> 16:
        total = (total & 0xFFFF) + (total >> 16)
    return number(2, 0xFFFF - total)


def hello(box, drawn, heard):
    return b"\x01" + number(1, box) + number(8, drawn) + number(8, heard)


def word_id(about, count, tag):
    return number(1, about) + number(8, count) + number(8, tag)


def word(about, count, tag, roads):
    costs = b"".join(number(1, to) + number(2, cost) for to, cost in roads)
    return word_id(about, count, tag) + number(1, len(roads)) + costs


def words(drawn, told):
    return b"\x02" + number(8, drawn) + number(1, len(told)) + b"".join(told)


def seen(drawn, ids):
    return b"\x03" + number(8, drawn) + number(1, len(ids)) + b"".join(ids)


def settings(boxes, me, costs):
    return b"\x06" + number(1, boxes) + number(1, me) + b"".join(number(2, cost) for cost in costs)


# IPv4 with no options, the sum of its header right.
def ip(source, destination, ttl, payload, protocol=17):
    head = b"\x45\x00" + number(2, 20 + len(payload)) + bytes(4) + bytes([ttl, protocol])
    addresses = bytes(source) + bytes(destination)
    return head + internet_sum(head + bytes(2) + addresses) + addresses + payload


def icmp(kind, rest):
    head = bytes([kind, 0])
    return head + internet_sum(head + bytes(2) + rest) + rest


# The error of RFC 792 for a packet: its header as it came and 8 bytes more.
def error(me, kind, packet):
    return ip([10, me, 0, 1], packet[12:16], 64, icmp(kind, bytes(4) + packet[:28]), 1)


def line(tick, what, rest):
    return b"\x05" + number(4, tick) + bytes([what]) + rest


reads = []
prints = []
ticks = 0
next_number = 0x100


def give(text):
    reads.append(text)


def want(*texts):
    prints.extend(texts)


def over(wire, frame):
    return f"wire {wire} {sealed(frame).hex()}"


def packet_over(wire, packet):
    return over(wire, b"\x04" + packet)


def book(what, rest):
    return f"book {line(ticks, what, rest).hex()}"


def began():
    return book(0, bytes([3, 1]))


def said(told):
    return book(1, told)


def taken(told):
    return book(2, told)


def refused(why):
    return book(3, bytes([why]))


def draw():
    global next_number
    next_number += 1
    give(f"draw {next_number - 1:016x}")
    return next_number - 1


def tick():
    global ticks
    draw()
    give("tick")
    ticks += 1


# Box 1 of three: wire 0 to box 0 at cost 5, wire 1 to box 2 at cost 7.
SETTINGS = "settings " + settings(3, 1, [5, 7, 0, 0, 0, 0, 0, 0]).hex()

# Before settings there is no box; and the first ones want a number.
give("tick")
want("refused 1")
give(SETTINGS)
want("draw 1")
LIFE = draw()
give(SETTINGS)
want(began())

# A tick wants a number too. At the tenth hellos go out; nobody was heard yet.
give("tick")
want("draw 1")
for _ in range(10):
    tick()
want(over(0, hello(1, LIFE, 0)), over(1, hello(1, LIFE, 0)))

# Three hellos: box 0 has not heard this box yet; now it has, and the road to it opens; and so has box 2.
LEFT = 0xA0A1A2A3A4A5A6A7
RIGHT = 0xB0B1B2B3B4B5B6B7
give(over(0, hello(0, LEFT, 0)))
give(over(0, hello(0, LEFT, LIFE)))
give(over(1, hello(2, RIGHT, LIFE)))

# At the next tick it says its roads, and at the fifteenth it tells both neighbours.
TAG = next_number
OWN = word(1, 1, TAG, [(0, 5), (2, 7)])
tick()
want(said(OWN))
for _ in range(4):
    tick()
want(over(0, words(LIFE, [OWN])), over(1, words(LIFE, [OWN])))

# A packet of words wants four numbers; it is taken, and answered by a seen.
OF_LEFT = word(0, 1, 0xC0, [(1, 5)])
OF_RIGHT = word(2, 1, 0xC2, [(1, 7)])
give(over(0, words(LEFT, [OF_LEFT])))
want("draw 4")
for _ in range(3):
    draw()
give(over(0, words(LEFT, [OF_LEFT])))
want("draw 1")
draw()
give(over(0, words(LEFT, [OF_LEFT])))
want(taken(OF_LEFT), over(0, seen(LIFE, [word_id(0, 1, 0xC0)])))
for _ in range(4):
    draw()
give(over(1, words(RIGHT, [OF_RIGHT])))
want(taken(OF_RIGHT), over(1, seen(LIFE, [word_id(2, 1, 0xC2)])))

# Seens come: both neighbours have its word.
give(over(0, seen(LEFT, [word_id(1, 1, TAG)])))
give(over(1, seen(RIGHT, [word_id(1, 1, TAG)])))

# Packets: one is handed on, one is for a house of its own, one comes from that house, and one is an echo for the box itself.
PAYLOAD = bytes(range(1, 13))
ASKED = b"\x12\x34\x00\x01abcdef"
FAR = ([10, 0, 0, 2], [10, 2, 0, 9])
give(packet_over(0, ip(*FAR, 64, PAYLOAD)))
want(packet_over(1, ip(*FAR, 63, PAYLOAD)))
give(packet_over(0, ip([10, 0, 0, 2], [10, 1, 0, 9], 1, PAYLOAD)))
want("house " + ip([10, 0, 0, 2], [10, 1, 0, 9], 1, PAYLOAD).hex())
give("house " + ip([10, 1, 0, 9], [10, 0, 0, 2], 64, PAYLOAD).hex())
want(packet_over(0, ip([10, 1, 0, 9], [10, 0, 0, 2], 63, PAYLOAD)))
give(packet_over(0, ip([10, 0, 0, 2], [10, 1, 0, 1], 9, icmp(8, ASKED), 1)))
want(packet_over(0, ip([10, 1, 0, 1], [10, 0, 0, 2], 64, icmp(0, ASKED), 1)))

# Ten that are too old get an error each; the eleventh in the same second gets none.
OLD = ip(*FAR, 1, PAYLOAD)
for _ in range(10):
    give(packet_over(0, OLD))
    want(refused(7), packet_over(0, error(1, 11, OLD)))
give(packet_over(0, OLD))
want(refused(10))

# A damaged frame is refused by its sum; lines of no form never come to the box.
DAMAGED = sealed(hello(0, LEFT, LIFE))
give(f"wire 0 {DAMAGED[:-1].hex()}{DAMAGED[-1] ^ 1:02x}")
want(refused(1))
for bad in ("wire 8 00", "house 0", ""):
    give(bad)
    want("refused 1")

# The twentieth tick: hellos, with whom it heard, and what each neighbour has not shown yet.
for _ in range(5):
    tick()
want(over(0, hello(1, LIFE, LEFT)), over(1, hello(1, LIFE, RIGHT)))
want(over(0, words(LIFE, [OF_RIGHT])), over(1, words(LIFE, [OF_LEFT])))

# The wire to box 2 goes: by the words 2 is still the next box, but that road is closed.
give("settings " + settings(3, 1, [5, 0, 0, 0, 0, 0, 0, 0]).hex())
NEW = ip(*FAR, 64, PAYLOAD)
give(packet_over(0, NEW))
want(refused(9), packet_over(0, error(1, 3, NEW)))

# It says so at the next tick, and then there is no way.
AGAIN = word(1, 2, next_number, [(0, 5)])
tick()
want(said(AGAIN))
give(packet_over(0, NEW))
want(refused(8), packet_over(0, error(1, 3, NEW)))

# It falls: there is no way, and none back for an error; to a house of its own the error goes.
give("fall")
want("draw 1")
ANEW = draw()
give("fall")
want(began())
give(packet_over(0, NEW))
want(refused(10))
HOUSE = ip([10, 1, 0, 9], [10, 2, 0, 9], 64, PAYLOAD)
give("house " + HOUSE.hex())
want(refused(8), "house " + error(1, 3, HOUSE).hex())

# The road to box 0 opens anew, and it counts its words from one; told what it said before it fell, it says one above that.
give(over(0, hello(0, LEFT, ANEW)))
FIRST = word(1, 1, next_number, [(0, 5)])
tick()
want(said(FIRST))
ABOVE = word(1, 10, next_number, [(0, 5)])
for _ in range(4):
    draw()
give(over(0, words(LEFT, [word(1, 9, 0x99, [(0, 5), (2, 7)])])))
want(said(ABOVE), over(0, words(ANEW, [ABOVE])))

for name, lines in zip(sys.argv[1:3], (reads, prints)):
    with open(name, "w") as file:
        file.write("\n".join(lines) + "\n")
