"""Peers of a responder, and lines for bench/responders: those that stand in crates/bench_lines, with the worked
conversations of responder_conversations.py and responder_refusals.py in them, and lines at random.
"""

import random
from collections import Counter

import stack_user_data as upper
from responder_conversations import BEFORE, CONVERSATIONS, HOSTILE, LOST, OTHER, STANDS
from responder_model import *  # all names of it are used as if they stood here
from responder_refusals import REFUSALS

runs = script("filestore")

# ---- peers


class Calling(End):
    """A calling end whose session begins with a number, which is 1 of an end of this profile."""

    def __init__(self, sync, first):
        super().__init__("I", sync)
        self.first = first

    def unit_of(self, word):
        unit = super().unit_of(word)
        return unit._replace(serial=self.first) if unit and unit.letter == "C" else unit

    def may(self, unit):
        return super().may(unit._replace(serial=1) if unit.letter == "C" else unit)


class Peer:
    """A calling end, and what it was told that was looked at."""

    def __init__(self, sync, first=1):
        self.end, self.sync = Calling(sync, int(first)), sync
        self.words = self.counted = 0  # how many words that it was told were taken, and how many counted

    def says(self, words):
        """The octets of what it sends."""
        first, *rest = words.split()
        if first == "raw":
            return bytes.fromhex(rest[0])
        if first == "tsdu":
            return streams.packet(bytes.fromhex("02F080" + rest[0]))
        if first == "value":
            pdv = upper.tagged([0x30], upper.integer(int(rest[0])) + upper.tagged([0xA0], bytes.fromhex(rest[1])))
            return streams.packet(bytes.fromhex("02F08001000100") + upper.tagged([0x61], pdv))
        return self.end.say(self.request(first, rest))

    def request(self, first, rest):
        if first == "check":
            return f"Check{sessions.next_serial(self.end.trace)}"
        if first == "ack":
            return f"Acknowledge{rest[0]}"
        if first == "restart":
            return f"Restart{rest[0]}:{rest[1]}"
        if first == "pass":
            return "Pass"
        carriage = {"A0": "Associate" + "-+"[self.sync], "A2": "Release", "A4": "Abort", "A5": "Abort"}.get(first[:2], "Item")
        return ("Cancel" if first[:4] == "BF25" else carriage) + ":" + first

    def hears(self, octets):
        """What it is told, in the words of a conversation."""
        self.end.hear(octets)
        told, self.words = self.end.told[self.words :], len(self.end.told)
        return [told_words(word) for word in told]


def told_words(word):
    letters, serial, digits = split(word)
    if letters in ("Check", "Acknowledged"):
        return f"{'check' if letters == 'Check' else 'ack'} {serial}"
    if letters in ("Abort", "Refused") and not digits:
        return "bare"
    if letters[:6] in ("String", "Descri") or letters in ("Enter", "Exit"):
        return value_of(element_in(word)).spelled().hex().upper()
    return digits.upper() or word


class Talk:
    """Peers and a responder, and the line of what came."""

    def __init__(self):
        self.run = Run()
        self.begin("")

    def begin(self, line):
        self.line, self.responder, self.peers = line, Responder(self.run.store), {}

    def comes(self, sign, link, octets=b"", moment=0):
        """An event; what the peers are told of it."""
        at = f"@{moment}" if moment else ""
        self.line += f" {link}{at}<{octets.hex().upper()}" if sign == "<" else f" {sign}{link}"
        try:
            replies = self.responder.deliver((sign, link, moment, octets))
        except Stopped:
            self.run.failed = self.responder
            return
        for to, said, shut in replies:
            peer = self.peers[to]
            yield from ((to, told) for told in (peer.hears(said) if said else []))
            if shut:
                yield to, "shut"

    def happens(self, line):
        link, _, words = line.partition(" ")
        if link == "life":
            self.run.crash(words)
            self.begin(f"{self.line} / {words}")
            return
        if link == "user":
            identity, *digits = words.split()
            self.line += f" user={':'.join([identity, *digits])}"
            self.run.store.users.append(User(identity, bytes.fromhex(digits[0]).decode("latin-1") if digits else None))
            return
        if link == "stop":
            self.line += f" stop={words}"
            self.responder.budget = int(words) - COUNTED - 1
            return
        link = int(link)
        if words == "end":
            yield from self.comes("-", link)
        elif words.split()[0] in ("arrive", "listen"):
            way, *session = words.split()
            self.peers[link] = peer = Peer(bool(session), *session[1:])
            yield from self.comes("+", link)
            if way == "arrive":
                yield from self.comes("<", link, peer.end.sent)
        else:
            octets = self.peers[link].says(words)
            assert octets is not None, line
            yield from self.comes("<", link, octets)

    def plays(self, text):
        """The lines of a conversation, of which each must tell what stands under it."""
        told, wanted, at = [], [], ""
        for line in [*(line for line in text.splitlines() if line.strip()), ""]:
            line = line.partition("#")[0].strip()
            if line.startswith("= "):
                link, _, words = line[2:].partition(" ")
                wanted.append((int(link), words))
                continue
            assert told == wanted, (at, told, wanted)
            if line:
                told, wanted, at = list(self.happens(line)), [], line
        return self.line.strip()


def line_of(text):
    return "deliver " + Talk().plays(text)


def octets_of_link(line, link):
    return b"".join(event[3] for event in Life(line.split(" / ")[0].partition(" ")[2]).events if event[1] == link)


# ---- rows

CR = "0300000B06E00000000100"

# 1,048,576 octets in data without the last mark, in TPDUs of 1,017, and one octet more: alone, and on an association.
MANY = "0300040002F000" + "61" * 1017
SOME = "030000" + f"{1_048_576 - 1_031 * 1_017 + 7:02X}" + "02F000" + "61" * (1_048_576 - 1_031 * 1_017)
ONE = "0300000802F00061"


def heading(text):
    return f"# {text}"


def too_long(start, link=1):
    """In events of 65,536 octets at most."""
    whole, rest = divmod(1_031, 64)
    pieces = [f"{link}<{MANY}*64"] * whole + [f"{link}<{MANY}*{rest}", f"{link}<{SOME}"]
    return " ".join([start, *pieces]), f"{link}<{ONE}"


def in_turn(first, second, count):
    """Two links, on which octets come in turn, so many at a time."""
    words = ["+1", "+2"]
    for at in range(0, max(len(first), len(second)), count):
        words += [f"{link}<{piece.hex().upper()}" for link, octets in ((1, first), (2, second)) if (piece := octets[at : at + count])]
    return " ".join(words)


def in_pieces(octets, count):
    """A link on which octets come in pieces of so many, of which each is asked for anew."""
    words = ["+1"]
    while octets:
        piece = octets[: count()]
        octets = octets[len(piece) :]
        words.append(f"1<{piece.hex().upper()}")
    return " ".join(words)


def served(lines):
    """A session, and the conversation of links that share a file."""
    octets, draw = octets_of_link(lines["session"], 1), random.Random(7)
    for count in (lambda: len(octets), lambda: 1, lambda: draw.randint(1, 40)):
        yield f"serve {in_pieces(octets, count)} / lose"
    yield f"serve {lines['shared'].removeprefix('deliver ')} / lose"


def standing_rows():
    """64 links stand, and a 65th and a 66th are shut; where one of them has ended there is room for one."""
    arrivals = " ".join(f"+{link}" for link in range(1, 67))
    yield f"deliver {arrivals} -7 +67 67<{CR} +68 +69 69<{CR} 64<{CR} 65<{CR}"
    yield f"serve {arrivals} -7 +67 67<{CR} +68 69<{CR} 64<{CR} 65<{CR} / lose"


def stop_rows():
    """A stop within the commit of a transfer's end, which is the fifth behind the opening: creation, open, request, check, end.
    Its changes stand where the gate was written and isn't lost."""
    for form in ("lose", "keep", "fill"):
        for call in range(1, COMMIT + 1):
            after = STANDS if call >= 3 and form != "lose" else LOST
            yield f"stop {COUNTED + 4 * COMMIT + call}\n{BEFORE}1 BF2300\nlife {form}\n{after}"


def rows():
    """The lines that stand in crates/bench_lines, with headings."""
    yield heading("worked conversations, cut anywhere")
    lines = {name: line_of(text) for name, text in CONVERSATIONS.items()}
    yield from (f"cut {line}" for line in lines.values())
    yield heading("what is refused beside other parties, dockets and users and in a session, and which refusal of two")
    yield from map(line_of, REFUSALS.values())
    yield heading("a session that is broken after each of its octets, the same with a check and a recovery, and two that read")
    yield from (f"fronts {lines[name]}" for name in ("session", "recovered", "shared", "read"))
    yield heading("octets that are at fault")
    yield from (f"cut {line_of(text)}" for text in HOSTILE.values())
    yield heading("data of 1,048,576 octets, and of one octet more")
    associated = Talk().plays(f"1 arrive\n1 A00380010F\n= 1 A10381010F")
    for start in (f"+1 1<{CR}", associated):
        most, more = too_long(f"deliver {start}")
        yield from (most, f"{most} {more}")
    yield heading("the same octets at fault through serve, and data of one octet more")
    yield from (f"serve {Talk().plays(text)} / lose" for text in HOSTILE.values())
    yield from (" ".join(too_long(f"serve {start}")) for start in (f"+1 1<{CR}", associated))
    yield heading("two conversations through serve, the one whole, octet by octet and in pieces at random")
    yield from served(lines)
    yield heading("long strings through serve")
    yield f"serve {lines['long strings'].removeprefix('deliver ')} / lose"
    yield heading("a store that is full: its first record ends at 89, and behind an area that is made before it at 99")
    created = line_of(f"1 arrive\n1 A00380010F\n= 1 A10381010F\n1 AA0C810161A207800528C27B0503\n= 1 AB00")
    yield from (created.replace("deliver", f"deliver limit={limit}") + " / lose" for limit in (89, 88))
    yield heading("64 links stand, and those after them are shut")
    yield from standing_rows()
    yield heading("each send fails, of two links in turn, and where a recovery ends another association; each wait; each call of the disk")
    both = in_turn(octets_of_link(lines["session"], 1), octets_of_link(line_of(OTHER), 1), 40)
    yield from (f"serve {both}", f"each send serve {both} / lose", f"each next serve {both} / lose")
    yield f"each send serve {lines['recovered'].removeprefix('deliver ')} / lose"
    yield from (f"each disk serve {both} / {form}" for form in ("keep", "lose", "fill"))
    yield heading("a stop at each write and sync, of a session and of a recovery")
    for name in ("session", "recovered", "docket", "changed"):
        yield from (f"each stop {lines[name]} / {form}" for form in ("keep", "lose", "fill"))
    yield heading("a stop within the commit of a transfer's end, and the recovery after it")
    yield from map(line_of, stop_rows())


# ---- at random

# So many octets of records are written at most where a life is stopped: with more than 4,096 of them a commit may make a new
# area first, which takes other calls.
MOST_WRITTEN = 3_500


def kinds_of(told):
    """The message of each word that an end is told, with the number of an abort or a diagnostic, and each fault."""
    for word in told:
        letters, _, digits = split(word)
        if letters == "Fault":
            yield "fault " + " ".join(word.split(":")[1:3])
        elif digits and letters[:6] not in ("String", "Descri"):
            message = pdu_in(digits)
            diagnostic = runs.diagnostic_of(message)
            number = f" {message.number}" if isinstance(message, ProviderAbort) else f" {diagnostic.number}" if diagnostic else ""
            yield type(message).__name__ + number
        else:
            yield letters


class Random(runs.Run):
    """A line at random: peers on some links, whose messages are mostly of their stage, and what fails meanwhile."""

    def __init__(self, seed):
        self.seed, self.random = seed, random.Random(seed)
        self.talk = Talk()
        self.links, self.moment, self.held, self.kinds = 0, 0, {}, Counter()
        self.message = None  # the last one that was drawn
        self.serves = self.chance(0.25)
        self.lives = 1 if self.serves or self.chance(0.6) else self.random.randint(2, 4)
        for life in range(self.lives):
            self.live(life)
        self.line = self.way() + self.talk.line.strip()

    @property
    def store(self):
        return self.talk.run.store

    def way(self):
        if not self.serves:
            return "cut deliver " if "stop=" not in self.talk.line and self.chance(0.3) else "deliver "
        words = [f"{name}={self.random.randint(1, most)}" for name, most in (("send", 60), ("next", 200)) if self.chance(0.3)]
        return " ".join(["serve", *words, ""])

    def prepare(self):
        """A first link makes two files with a few strings, and leaves."""
        strings = " ".join(f"0401{each:02X}" for each in range(self.one((0, 1, 9, 17))))
        units = " ".join(f"6000 1901{65 + each:02X}" for each in range(self.one((0, 2, 10))))
        for words in ("arrive sync", f"A007800200FF830104 AA10810161A207800528C27B0503850200FF B20380011D BF2103800102 {strings} "
                      f"BF2200 BF2300 B400 A800 AA10810162A207800528C27B0502850200FF B203800113 BF21068001018101FF {units} "
                      "BF2200 BF2300 B400 A800 A200"):  # fmt: skip
            for word in words.split() if " " in words[12:] else [words]:
                self.step(f"1 {word}")
        self.links = 1

    def live(self, life):
        """One life; a later one begins with what is left, and some are stopped."""
        if life:
            written = self.talk.responder.written
            self.step(f"life {self.one(('keep', 'lose', 'fill'))}")
            self.talk.responder.written = written
            self.links, self.held = 0, {}
        elif self.chance(0.85):
            self.prepare()
        self.talk.responder.measures = self.lives > 1
        if life < self.lives - 1 and self.chance(0.7):
            self.step(f"stop {self.random.randint(1, 70)}")
        for _ in range(self.random.randint(10, 80)):
            if self.talk.run.failed or self.talk.responder.written > MOST_WRITTEN:
                return
            self.happens()

    def step(self, line):
        list(self.talk.happens(line))

    def happens(self):
        parties = self.store.parties
        if not parties or len(parties) < 4 and self.chance(0.08):
            self.arrives()
            return
        link = self.one(sorted(parties))
        if self.chance(0.02):
            self.step(f"{link} end")
            return
        octets = self.held.pop(link, b"") + self.octets_of(link, parties[link])
        if isinstance(self.message, Data) and self.chance(0.4) or self.chance(0.01):
            self.held[link] = octets
        elif octets:
            self.sends(link, octets)

    def arrives(self):
        self.links += self.one((1, 1, 1, 3))
        self.step(f"{self.links} {self.one(('arrive',) + ('arrive sync',) * 5)}")

    def sends(self, link, octets):
        """Octets come, mostly at once; the peers are told what is said."""
        while octets:
            count = len(octets) if self.chance(0.9) else self.random.randint(1, len(octets))
            self.moment += self.one((0, 0, 1, 60))
            list(self.talk.comes("<", link, octets[:count], self.moment))
            octets = octets[count:]
        for peer in self.talk.peers.values():
            self.kinds.update(kinds_of(peer.end.told[peer.counted :]))
            peer.counted = len(peer.end.told)

    def octets_of(self, link, party):
        """What a peer sends next."""
        peer = self.talk.peers[link]
        if self.chance(0.004):
            return self.one((bytes(7), bytes.fromhex("0300000702F080"), bytes.fromhex("0300000904700001000400"),
                             bytes.fromhex("0300000B06800001000100"), bytes.fromhex("0300000902F0800100")))  # fmt: skip
        request = self.request(peer, party)
        octets = peer.end.say(request) if request else None
        if octets and self.chance(0.006):
            place = self.random.randrange(len(octets))
            octets = octets[:place] + bytes([self.random.randrange(256)]) + octets[place + 1 :]
        return octets or b""

    def request(self, peer, party):
        """The request of a message that is drawn."""
        message = self.message = self.drawn(party)
        trace, transfer = peer.end.trace, party.transfer
        base = sessions.next_serial(trace) - (len(transfer.checks) if transfer else 0)
        if isinstance(message, Break):
            return None
        if isinstance(message, Check):
            return f"Check{sessions.next_serial(trace)}"
        if isinstance(message, Acknowledge):
            return f"Acknowledge{max(0, base + message.point - 1)}"
        if isinstance(message, (Restart, RestartRequest)) and peer.sync:
            return f"Restart{base + message.point}:{value_of(RestartRequest(message.point)).spelled().hex()}"
        if isinstance(message, Restart):
            message = RestartRequest(message.point)
        if isinstance(message, RecoverRequest) and peer.sync and self.chance(0.4):
            self.held[party.link] = peer.end.say("Pass") or b""
        return peer.request(value_of(message).spelled().hex().upper(), [])
