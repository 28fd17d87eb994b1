"""Conversations of the two ends of an association, recorded and at random, in other spellings and with faults, as lines for
bench/stacks."""

import random

import stack_user_data as upper
from stack_end import End, sessions, streams

# ---- conversations

# F-INITIALIZE with the units of a transfer with checks and without, and its answers.
CHECKED, PLAIN = "A007800200CF830104", "A00380010F"
TAKES_CHECKED, TAKES_PLAIN = "A107810200CF820104", "A10381010F"
BEGIN = {
    True: f"I>Associate+:{CHECKED} O>Accept+:{TAKES_CHECKED}",
    False: f"I>Associate-:{PLAIN} O>Accept-:{TAKES_PLAIN}",
}
# Of file `a`: made and opened for replace, and for reading.
MADE = "I>Item:AA0F800101810161A207800528C27B0503 O>Item:AB00 I>Item:B206800104830107 O>Item:B309A107800528C27B0503"
READ = "I>Item:A606800161810121 O>Item:A700 I>Item:B206800101830107 O>Item:B309A107800528C27B0503"
CLOSED = "I>Item:B400 O>Item:B500 I>Item:A800 O>Item:A900 I>Release:A200 O>Released:A300"
ENDED = "I>Item:BF2200 I>Item:BF2300 O>Item:BF2400"

# Each step is an end, what it does, and a request: `>` is heard at once, and `~` when the other end takes all (`<`).
CONVERSATIONS = {
    "write": f"""{BEGIN[True]} {MADE} I>Item:BF2103800102 I>Item:04027631 I>Item:04027632 I>Check1 O>Acknowledge1
        I>Item:04027633 I>Item:04027634 I>Check2 I>Item:04027635 I>Restart2:BF2703800101 O>Restarted2:BF2803800101
        I>Item:04027733 I>Check2 O>Acknowledge2 {ENDED} {CLOSED}""",
    "read": f"""{BEGIN[True]} {READ} I>Item:BF2000 O>Item:04027631 O>Check1 O>Item:04027632 O>Check2 I>Acknowledge1
        O>Item:04027633 I>Restart2:BF2703800101 O>Restarted2:BF2803800101 O>Item:04027632 O>Check2 O>Item:04027633
        O>Item:BF2200 I>Acknowledge2 I>Item:BF2300 O>Item:BF2400 I>Item:BF2000 O>Item:BF2200 I>Item:BF2300 O>Item:BF2400
        {CLOSED}""",
    "cancel": f"""{BEGIN[True]} {MADE} I>Item:BF2103800102 I>Item:04027631 I>Check1 O>Acknowledge1 I>Item:04027632
        I>Cancel:BF2500 O>Cancelled:BF2600 I>Item:BF2103800102 I>Check2 O>Acknowledge2 {ENDED} {CLOSED}""",
    "cross": f"""{BEGIN[True]} {READ} I>Item:BF2000 O>Item:04027631 O>Check1 O~Item:04027632 O~Check2
        I~Restart2:BF2703800101 O~Cancel:BF2500 O< I< O~Item:04027633 I~Cancelled:BF2600 I< O< I>Item:BF2000 O>Check3
        I>Acknowledge3 {CLOSED}""",
    "equal": f"""{BEGIN[True]} {MADE} I>Item:BF2103800102 I>Check1 I>Check2 I~Restart2:BF2703800101 O~Restart1:BF2700 I< O<
        O>Restarted2:BF2803800101 {ENDED} {CLOSED}""",
    "recover": f"""{BEGIN[True]} I>Item:BA09800107810101820101 O>Item:BB098101018201018301FF I>Item:04027631 I>Check1
        O>Acknowledge1 {ENDED} I>Item:B400 O>Item:B500 I>Item:BA06800107810102 O>Item:BB03810102 I>Pass
        O>Item:BB05A00380011B O>Pass I>Check2 {CLOSED}""",
    "plain": f"""{BEGIN[False]} I>Item:A603800161 O>Item:A705A00380010B {MADE} I>Item:BF2103800102 I>Item:1604796F7572
        I>Item:6000 I>Item:6006800161810100 I>Item:4100 I>Item:4200 I>Item:BF2700 O>Item:BF2800 I>Cancel:BF2500
        O>Cancelled:BF2600 {CLOSED}""",
    "unsynced": f"I>Associate+:{CHECKED} O>Accept-:{TAKES_PLAIN} I>Check1 I>Item:BF2700 I>Pass I>Restart1:BF2700 {CLOSED}",
    "refused": f"I>Associate+:{CHECKED} O>Refuse:A105A003800124 I>Abort",
    "unwilling": f"I>Associate-:{PLAIN} O>Refuse I>Item:A603800161",
    "abort": f"{BEGIN[True]} I>Item:A603800161 O>Abort:A506800165810103 O>Abort I>Abort",
    "user": f"{BEGIN[False]} I>Item:A603800161 I>Abort:A403800107",
    "early": f"I>Abort O>Abort I>Associate-:{PLAIN} I>Abort",
    "other": f"{BEGIN[True]} O>Release:A200 I>Item:A603800161 I>Released:A300",
    "leaving": f"""{BEGIN[True]} I>Check1 I>Release:A200 O>Acknowledge1 O>Restart1:BF2700 O>Released:A300
        I>Restarted1:BF2800 {CLOSED}""",
    "crossed": f"""{BEGIN[True]} I~Release:A200 O~Item:A700 O~Restart1:BF2700 O~Item:A700 O< I< I>Restarted1:BF2800
        O~Release:A200 I~Release:A200 O< I<""",
    "unaccepted": f"""I>Abort:A403800107 I>Associate+:{CHECKED} I>Abort:A403800107 O>Abort:A503800165 O>Accept+:{TAKES_CHECKED}
        O>Abort:A503800165""",
    "kinds": f"""{BEGIN[True]} {MADE} I>Item:BF2103800102 I>Check1 I>Restart2:BF2703800101 O>Cancelled:BF2600
        O>Restarted2:BF2803800101 I>Check2 O>Cancel:BF2500 I>Restarted3:BF2800 I>Cancelled:BF2600 I>Cancel:BF2500
        O>Restarted3:BF2800 O>Cancelled:BF2600 {CLOSED}""",
}

# Conversations in which one end says nothing, that end, and how often each fault is in the rows of the crate.
OPENINGS = (
    (f"I>Associate+:{CHECKED} I>Abort", "O", 4),
    ("I>Associate-:A00F80010F8103616E6E8202707783010A I>Abort", "O", 4),
    ("I>Abort", "O", 1),
    ("O>Abort", "I", 1),
)

# What may be said in P-DATA at random.
ITEMS = """A603800161 A700 A705A00380010B AA0F800101810161A207800528C27B0503 AB00 B206800104830107 B309A107800528C27B0503
    BF2103800102 BF2000 BF2200 BF2300 BF2400 B400 B500 BC038001FF BB03810102 BB098101018201018301FF 04027631 0400 16026162
    1902FF00 1A0120 1B017E 6000 6003810100 6006800161810100 4100 4200""".split() + ["0482012C" + "78" * 300]

# How often each request is tried at random.
WEIGHTS = dict(Item=30, Check=12, Acknowledge=8, Restart=3, Restarted=6, Cancel=2, Cancelled=6, Pass=3, Release=1, Released=3,
               Abort=0.2)  # fmt: skip


# An abstract syntax that isn't accepted, and what a called end is proposed, where some proposals have one identifier: `-`
# doesn't offer the basic encoding rules. Then the contexts of ACSE's value and of the PDU, and those of F-SELECTs and
# strings after the acceptance.
OTHER = (1, 0, 8571, 2, 9)
SYNTAXES = dict(acse=upper.ACSE, pci=upper.PCI, fadu=upper.FADU, text=upper.TEXT, binary=upper.BINARY, other=OTHER)
PROPOSED = """
    1acse 3other 3pci 5pci : 1 5 : 5 3
    1acse 3other 3pci 5pci : 1 3 :
    1acse 3pci- 3pci 5pci 5other : 1 5 : 5 3
    1acse 3pci 3other 3pci- 9binary 9text : 1 3 : 3 9 5
    1acse 3pci 3pci 1pci 1text : 1 3 : 3 1
    1acse 3text 3pci 7pci : 1 3 :
    1acse 3text 3pci 7pci : 1 7 : 3 7
    1other 1acse 3pci : 1 3 :
    1other 1acse 7acse 3pci : 7 3 : 3 1
    -1acse 2147483649pci -1pci -2147483648text 2147483649other : -1 2147483649 : 2147483649 -2147483648 1
    3pci 3acse 5acse 5pci 3pci 7pci 7text : 5 3 : 3 7 5
""".strip().splitlines()


class Delivery:
    """What one end takes at once: the packets of units, or octets that are no unit's."""

    def __init__(self, octets, unit=None, own=None):
        self.octets, self.unit, self.own = octets, unit, own


class Conversation:
    """Both ends, and for each the row of what it took and what it was asked to say."""

    def __init__(self, sync):
        self.ends = {"I": End("I", sync), "O": End("O")}
        self.rows = {"I": [], "O": []}
        self.ways = {"I": [], "O": []}  # what is on its way to each
        self.packets = []  # the end that sent octets, and these
        self.sync = sync
        self.deliver("O", Delivery(self.ends["I"].sent))
        self.deliver("I", Delivery(self.ends["O"].sent))

    def deliver(self, own, delivery):
        self.packets.append((sessions.other(own), delivery.octets))
        self.rows[own].append(delivery)
        self.ends[own].hear(delivery.octets)

    def say(self, own, word, at_once):
        end, peer = self.ends[own], sessions.other(own)
        self.rows[own].append(word)
        unit = end.unit_of(word)
        octets = end.say(word)
        if octets is None:
            end.tell("no")
            return
        self.ways[peer].append(Delivery(octets, unit, own))
        if at_once:
            self.take(peer)

    def take(self, own):
        waiting, self.ways[own] = self.ways[own], []
        for delivery in waiting:
            self.deliver(own, delivery)

    def word(self, own):
        return "called" if own == "O" else "sync" if self.sync else "plain"


def recorded(text):
    made = Conversation("Associate+" in text)
    for step in text.split():
        own, way, word = step[0], step[1], step[2:]
        if way == "<":
            made.take(own)
        else:
            made.say(own, word, way == ">")
    return made


def some_request(rng, made, own):
    """A word that an end may well say."""
    end = made.ends[own]
    number = sessions.next_serial(end.trace)
    near = max(0, number - rng.choice((0, 0, 0, 1, 2)))
    name = rng.choices(list(WEIGHTS), list(WEIGHTS.values()))[0]
    if name == "Item":
        return "Item:" + rng.choice(ITEMS)
    if name in ("Check", "Acknowledge"):
        return f"{name}{number if name == 'Check' else max(0, number - rng.choice((1, 1, 2, 3)))}"
    if name == "Restart":
        return f"Restart{near}:BF2703800101"
    if name == "Restarted":
        waiting = sessions.unanswered(end.trace)
        return f"Restarted{waiting[1].serial if waiting else near}:BF2800"
    if name == "Abort":
        return rng.choice(("Abort", "Abort:A403800107"))
    return name + dict(Cancel=":BF2500", Cancelled=":BF2600", Release=":A200", Released=":A300").get(name, "")


def walked(rng):
    """A conversation at random, in which much may cross."""
    sync = rng.random() < 0.8
    made = recorded(BEGIN[sync])
    for _ in range(rng.randrange(5, 40)):
        own = rng.choice("IO")
        if rng.random() < 0.5:
            made.take(own)
        word = some_request(rng, made, own)
        unit = made.ends[own].unit_of(word)
        if (unit is not None and made.ends[own].may(unit)) or rng.random() < 0.1:
            made.say(own, word, rng.random() < 0.6)
    made.take("I")
    made.take("O")
    return made


# ---- other spellings of user data


def length_of(rng, n):
    if rng.random() < 0.7:
        return upper.tagged([], bytes(n))[: -n or None]
    size = rng.randrange(max(1, (n.bit_length() + 7) // 8), 5)
    return bytes([128 + size]) + n.to_bytes(size, "big")


def respelled(rng, octets, rate=0.3):
    """The same value with other lengths, strings in segments, and values in [1]; octets that are no value as they are."""
    if upper.front_of(octets) != (len(octets), True):
        return octets
    part = upper.part_at(upper.Text(octets, range(len(octets)), len(octets)), 0)
    return spelled_again(rng, part, rate)


def segments(rng, octets):
    made = b""
    while octets:
        size = rng.randrange(0, len(octets) + 1)
        piece = octets[:size]
        inner = bytes([4]) + length_of(rng, len(piece)) + piece
        made += bytes([0x24]) + length_of(rng, len(inner)) + inner if rng.random() < 0.2 else inner
        octets = octets[size:]
    return made


def around(rng, first, inside, rate):
    if first & 32 and rng.random() < rate:
        return bytes([first, 128]) + inside + bytes(2)
    return bytes([first]) + length_of(rng, len(inside)) + inside


def spelled_again(rng, part, rate):
    octets = part.text.octets
    head = octets[part.start : part.contents]
    size = 1 if head[0] & 31 < 31 else 2
    inside = part.octets
    if part.built:
        inside = b"".join(spelled_again(rng, each, rate) for each in part.parts)
        # the [0] of a PDV-list or an EXTERNAL, which follows an identifier of one octet
        if head[0] == 0xA0 and octets[part.start - 3 : part.start - 1] == b"\2\1" and rng.random() < rate:
            if rng.random() < 0.5:
                return b"\x81" + length_of(rng, len(inside)) + inside
            return around(rng, 0xA1, segments(rng, inside), rate)
    elif head[0] == 4 and rng.random() < rate:
        return around(rng, 0x24, segments(rng, inside), rate)
    if size == 2:
        if part.built and rng.random() < rate:
            return head[:2] + b"\x80" + inside + bytes(2)
        return head[:2] + length_of(rng, len(inside)) + inside
    return around(rng, head[0], inside, rate)


# ---- faults


def changed(rng, octets):
    """The octets with one of them turned in a bit, dropped, doubled, another one or a new one, or with the rest cut off."""
    if not octets:
        return bytes([rng.randrange(256)])
    at = rng.randrange(len(octets))
    before, octet, after = octets[:at], octets[at : at + 1], octets[at + 1 :]
    way = rng.randrange(8)
    if way < 3:
        return before + bytes([octet[0] ^ 1 << rng.randrange(8)]) + after
    if way == 3:
        return before + after
    if way == 4:
        return before + octet + octet + after
    if way == 5:
        return before + bytes([rng.choice((0, 1, 2, 3, 4, 5, 0x30, 0x80, 0x81, 0xA0, 0xFF, octet[0] + 1 & 255))]) + after
    if way == 6:
        return before + bytes([rng.choice((0, 0x80, 0xA0, 0x30, rng.randrange(256)))]) + octet + after
    return before


def packets(tsdu):
    if not tsdu:
        return streams.packet(bytes([2, 0xF0, 0x80]))
    end = streams.End(False)
    end.first = False
    end.send(tsdu)
    return end.sent


def tsdu_of(delivery, unit):
    return b"".join(sessions.octets_of(spdu) for spdu in sessions.spdus_of(delivery.own, unit))


def parts_of(part):
    yield part
    for each in part.parts:
        yield from parts_of(each)


def edited(rng, octets):
    """The value with one of its parts dropped, doubled, in another place, of another tag or with other contents, and the
    lengths around it as they are then."""
    whole = upper.part_at(upper.Text(octets, range(len(octets)), len(octets)), 0)
    target = rng.choice(list(parts_of(whole)))
    way = rng.randrange(7)

    def again(part):
        head, inside = octets[part.start : part.contents], part.octets
        size = 1 if head[0] & 31 < 31 else 2
        if part.built:
            made = [again(each) for each in part.parts]
            if target in part.parts and way == 2:
                made.insert(rng.randrange(len(made) + 1), made.pop(part.parts.index(target)))
            inside = b"".join(made)
        tag = head[:size]
        if part is target and way > 3:
            if way == 4:
                tag = bytes([tag[0] ^ 1 << rng.randrange(8)]) + tag[1:]
            elif way == 5:
                inside = changed(rng, inside)
            else:
                inside += bytes.fromhex(rng.choice(("8100", "9F2A00", "0500", "A000", "020101", "06025101", "80", "00")))
        spelled = upper.tagged(tag, inside)
        if part is target and way < 2:
            return spelled * (2 * way)
        return spelled + bytes.fromhex("9D0161") if part is target and way == 3 else spelled

    return again(whole)


PARAMETERS = ((5, b""), (16, b"\4"), (16, b"\0"), (17, b"\1"), (20, b"\0\x2a"), (26, b"\4"), (26, b"\0"), (27, b"\1"),
              (42, b"7"), (99, b"x" * 300))  # fmt: skip


def with_parameters(rng, tsdu):
    """The last SPDU of a TSDU with a parameter dropped, doubled, new, in another place, or with another code or contents."""
    begin = 0
    if tsdu[0] == 1 and len(tsdu) > 2 + tsdu[1]:
        begin = 2 + tsdu[1]
    size = 1 if tsdu[begin + 1] < 255 else 3
    length = int.from_bytes(tsdu[begin + 2 : begin + 4], "big") if size == 3 else tsdu[begin + 1]
    at = begin + 1 + size
    end = at + length
    found = []
    while at < end:
        code, size = tsdu[at], 1 if tsdu[at + 1] < 255 else 3
        n = int.from_bytes(tsdu[at + 2 : at + 4], "big") if size == 3 else tsdu[at + 1]
        found.append((code, tsdu[at + 1 + size : at + 1 + size + n]))
        at += 1 + size + n
    place, way = rng.randrange(len(found) + 1), rng.randrange(6)
    if place == len(found):
        found.insert(rng.randrange(place + 1), rng.choice(PARAMETERS))
    elif way == 0:
        found.pop(place)
    elif way == 1:
        found.append(found[place])
    elif way == 2:
        found.insert(rng.randrange(place + 1), found.pop(place))
    elif way == 3:
        found[place] = (rng.choice((5, 16, 17, 20, 26, 27, 42, 50, 193, 194)), found[place][1])
    else:
        found[place] = (found[place][0], changed(rng, found[place][1]))
    made = b"".join(sessions.tagged(code, value) for code, value in found)
    return tsdu[:begin] + sessions.tagged(tsdu[begin], made) + tsdu[end:]


def other_unit(rng, unit):
    """The unit with another number, side, letter or user data."""
    way = rng.randrange(4)
    if way == 0 and unit.serial is not None:
        return unit._replace(serial=max(0, min(999_999, unit.serial + rng.choice((-2, -1, 1, 2, 999_999)))))
    if way == 1 and unit.side is not None:
        return unit._replace(side=rng.choice("IO-"))
    if way == 2:
        return unit._replace(data=b"")
    letter = rng.choice("CcAanfgdDxklrset")
    return unit._replace(letter=letter, serial=unit.serial or 0, side=unit.side or rng.choice("IO"))


def in_pieces(rng, tsdu):
    """The packets of a TSDU in TPDUs of any lengths, of which the last may have no data."""
    made, rest = b"", tsdu
    while rest and rng.random() < 0.8:
        size = rng.randrange(1, min(len(rest), 200) + 1)
        made += streams.packet(bytes([2, 0xF0, 0]) + rest[:size])
        rest = rest[size:]
    return made + streams.packet(bytes([2, 0xF0, 0x80]) + rest)


def with_proposals(rng, octets):
    """A CR or a CC with parameters, or without new ones."""
    more = rng.choices(("C00107", "C0010A", "C00111", "C1020001", "C20141", "C300"), k=rng.randrange(4))
    tpdu = octets[4:] + bytes.fromhex("".join(more))
    return streams.packet(bytes([len(tpdu) - 1]) + tpdu[1:])


LEVELS = ("stream", "packet", "tsdu", "parameters", "data", "parts", "unit", "pieces", "spelling",
          "spelling and data", "spelling and parts")  # fmt: skip


def faulty(rng, delivery, level):
    """The octets of a delivery with a fault at a layer, whose length fits those below."""
    unit = delivery.unit
    if level == "pieces":
        return with_proposals(rng, delivery.octets) if unit is None else in_pieces(rng, tsdu_of(delivery, unit))
    if unit is None or level == "stream":
        return changed(rng, delivery.octets)
    if level == "packet":
        return streams.packet(changed(rng, delivery.octets[4:])[:65_000])
    if level == "tsdu":
        return packets(changed(rng, tsdu_of(delivery, unit)))
    if level == "parameters":
        return packets(with_parameters(rng, tsdu_of(delivery, unit)))
    if level == "unit":
        return packets(tsdu_of(delivery, other_unit(rng, unit)))
    data = unit.data
    if data and "parts" in level:
        data = edited(rng, data)
    if data and "spelling" in level:
        data = respelled(rng, data)
    if "data" in level:
        data = changed(rng, data)
    return packets(tsdu_of(delivery, unit._replace(data=data)))


def line_of(made, own, octets_of=lambda delivery: delivery.octets):
    words = [made.word(own)]
    for step in made.rows[own]:
        words.append(">" + step if isinstance(step, str) else "<" + octets_of(step).hex())
    return " ".join(words)


def faulty_line(rng, made, own, level):
    """The line of one end with a fault in one of its deliveries."""
    deliveries = [step for step in made.rows[own] if not isinstance(step, str)]
    if any(name in level for name in ("data", "parts", "spelling")):
        deliveries = [each for each in deliveries if each.unit is not None and each.unit.data] or deliveries
    which = rng.choice(deliveries)
    if level == "pieces" or (level == "spelling" and rng.random() < 0.5):
        skipped = level == "spelling"
        return line_of(made, own, lambda each: each.octets if skipped and each.unit is None else faulty(rng, each, level))
    return line_of(made, own, lambda each: faulty(rng, each, level) if each is which else each.octets)


def reordered(rng, made, own):
    """The line of one end with a delivery dropped, doubled or in another place."""
    words = line_of(made, own).split(" ")
    places = [at for at, word in enumerate(words) if word[0] == "<"]
    at = rng.choice(places)
    word = words.pop(at)
    way = rng.randrange(3)
    if way:
        words.insert(rng.choice(places), word)
    if way == 1:
        words.insert(at, word)
    return " ".join(words)


# ---- proposals with one identifier


def offer_of(word):
    """`3pci`: an identifier and an abstract syntax."""
    digits = word.rstrip("-").rstrip("abcdefghijklmnopqrstuvwxyz")
    name = word[len(digits) :]
    return upper.Offer(int(digits), SYNTAXES[name.rstrip("-")], not name.endswith("-"))


def sent_by(unit):
    return packets(b"".join(sessions.octets_of(spdu) for spdu in sessions.spdus_of("I", unit)))


def proposed(text):
    """The line of a called end to which contexts are proposed, and which accepts the association."""
    offers, first, others = text.split(":")
    acse, context = map(int, first.split())
    octets = upper.proposing([offer_of(word) for word in offers.split()], acse, context, bytes.fromhex(PLAIN))
    heard = [streams.packet(bytes.fromhex("06E00000000100")), sent_by(sessions.Unit("c", 1, None, octets))]
    words = ["<" + octets.hex() for octets in heard] + [f">Accept-:{TAKES_PLAIN}", ">Item:A700", ">Item:04027631"]
    for number in others.split():
        for value in ("A603800161", "04027631"):
            words.append("<" + sent_by(sessions.Unit("d", data=upper.pdv(int(number), bytes.fromhex(value)))).hex())
    return " ".join(["called", *words])


def proposed_at_random(rng):
    """Up to eight proposals with few identifiers."""
    numbers = [rng.choice((1, 3, 5, 7, 255, 256)) for _ in range(rng.randrange(1, 9))]
    offers = (f"{number}{rng.choice(list(SYNTAXES))}{rng.choice(('', '', '', '-'))}" for number in numbers)
    places = " ".join(str(rng.choice(numbers)) for _ in range(rng.randrange(4)))
    return proposed(f"1acse {' '.join(offers)} : {rng.choice([1, *numbers])} {rng.choice(numbers)} : {places}")


# ---- lines


def faulty_rows(rng, made, own, times):
    """A conversation at one end, and with faults."""
    yield "cut " + line_of(made, own)
    for _ in range(times):
        for level in LEVELS:
            yield faulty_line(rng, made, own, level)
        yield reordered(rng, made, own)


def rows():
    """The lines that stand in the crate: conversations at an end that says nothing, and whole ones at both."""
    rng = random.Random(8571)
    for text, own, times in OPENINGS:
        yield from faulty_rows(rng, recorded(text), own, times)
    for text in CONVERSATIONS.values():
        made = recorded(text)
        for own in "OI":
            yield from faulty_rows(rng, made, own, 1)
    yield from map(proposed, PROPOSED)


def places(text):
    """The lines of a recorded conversation with a fault at each place: a bit turned, an octet dropped or doubled, and the
    rest of what comes cut off."""
    made = recorded(text)
    for own in "OI":
        words = line_of(made, own).split(" ")
        for which, word in enumerate(words):
            octets = bytes.fromhex(word[1:]) if word[0] == "<" else b""
            for at, octet in enumerate(octets):
                before, after = octets[:at], octets[at + 1 :]
                turned = before + bytes([octet ^ 1 << at % 8]) + after
                for other in (turned, before + after, before + bytes([octet, octet]) + after):
                    yield " ".join(words[:which] + ["<" + other.hex()] + words[which + 1 :])
                says = [step for step in words[which + 1 :] if step[0] == ">"]
                yield " ".join(words[:which] + ["<" + before.hex()] + says)


def cases(count=20_000, seed=8327):
    """So many lines at random, and a few more."""
    rng = random.Random(seed)
    stored = [recorded(text) for text in (*CONVERSATIONS.values(), *(text for text, _, _ in OPENINGS))]
    made = 0
    while made < count:
        conversation = rng.choice(stored) if rng.random() < 0.5 else walked(rng)
        for own in "OI":
            yield "cut " + line_of(conversation, own)
            for level in LEVELS * 2:
                yield ("cut " if rng.random() < 0.05 else "") + faulty_line(rng, conversation, own, level)
            yield reordered(rng, conversation, own)
            yield proposed_at_random(rng)
            made += 25
