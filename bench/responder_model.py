"""A responder as a plain model, for bench/responders: associations of stack_end.py over the filestore of filestore_model.py.

Each link has the called end of an association, with its whole stream and trace, and the filestore has a party for it. What an
end is told becomes a message of the party, and what the party sends a request of the end. Beside it stand the lives of a
store: which changes a stop leaves, what `serve` sends where a send fails, and the words of crates/bench_lines.
"""

import copy
import sys

sys.dont_write_bytecode = True
from filestore_model import *  # all names of it are used as if they stood here
from message_octets import message_of, script, value_in, value_of
from stack_end import OPEN, End, sessions, streams

kept = script("filestore").kept

MOST_LINKS = 64
# Calls of the disk: what opening a small store makes (a sync, its length, its head and its area), and a commit (the record,
# a sync, its gate, a sync). Of these a stop counts writes and syncs.
OPENING, COUNTED, COMMIT = 4, 1, 4
LIMIT = 1 << 30


# ---- words


def digest_of(octets):
    return f"#{streams.digest(octets, 2_166_136_261):08x}"


def shown_octets(octets):
    octets = bytes(octets)
    return octets.hex() if len(octets) <= 256 else f"{octets[:8].hex()}..{len(octets)}{digest_of(octets)}"


def element_word(element):
    if isinstance(element, Descriptor):
        return ("D+" if element.filled else "D-") + (element.name or "")
    if isinstance(element, (Enter, Exit)):
        return type(element).__name__
    number = element.universal if isinstance(element, Text) else 4
    return f"{number}:{shown_octets(element.octets)}"


def elements_word(elements):
    return " [" + "".join(" " + element_word(each) for each in elements) + "]"


def secret(mark, password):
    return "" if password is None else mark + shown_octets(password.encode("latin-1"))


def file_word(file):
    contents = file.contents
    words = f"{{{file.name} {contents.entry}:{contents.universal}:{contents.longest}:{contents.significance} p{file.permitted}"
    words += "".join(f" t{term.identity or ''}:{term.actions}{secret(':', term.password)}" for term in file.terms)
    words += f" v{file.version}"
    for mark, stamp in (("c", file.created), ("m", file.modified), ("r", file.read), ("h", file.changed)):
        words += "" if stamp is None else f" {mark}{stamp.moment}:{stamp.identity}"
    return words + "".join(map(elements_word, file.units)) + "} "


def transfer_word(transfer):
    if transfer is None:
        return " idle"
    refused, point = transfer.refused.number if transfer.refused else 0, transfer.acknowledged
    if isinstance(transfer, Reading):
        return f" read:{transfer.context}:{transfer.fadu}:{refused}:{point}:{transfer.version}"
    places = [0] + transfer.checks[:point]
    pieces = "".join(elements_word(transfer.values[start:end]) for start, end in zip(places, places[1:]))
    return f" write:{transfer.operation}:{transfer.fadu}:{refused}:{point}{pieces}"


def docket_word(docket):
    selection, regime = docket.selection, docket.regime
    controls = "".join(map(str, regime.controls + selection.controls))
    return (f"({docket.identity} {regime.activity} {selection.file} q{selection.requested} k{controls} o{regime.mode}"
            f"{secret(' s', selection.password)} z{regime.position} n{regime.done + 1} l{regime.last}"
            f"{transfer_word(docket.transfer)}) ")  # fmt: skip


def entries_of(store):
    """What a store keeps, each in words."""
    users = [f"<{user.identity}{secret(' ', user.password)}> " for user in store.users]
    return users + [file_word(file) for file in store.files] + [docket_word(docket) for docket in kept(store)]


def tables_words(store):
    return "".join(entries_of(store))


# ---- what an indication is, and how what is said is carried


class Outside(Exception):
    """An indication is a fault, which an abort of this number answers, with this place."""

    def __init__(self, number, place=0):
        super().__init__(number, place)
        self.number, self.place = number, place


def element_in(word):
    name, _, digits = word.partition(":")
    if name in ("Enter", "Exit"):
        return Data(Enter() if name == "Enter" else Exit())
    if name in ("Descriptor+", "Descriptor-"):
        return Data(Descriptor(bytes.fromhex(digits).decode("latin-1") if digits else None, name[-1] == "+"))
    octets, number = tuple(bytes.fromhex(digits)), int(name[6:])
    return Data(Binary(octets) if number == 4 else Text(number, octets))


def pdu_in(digits):
    value, _ = value_in(bytes.fromhex(digits))
    return message_of(value)


def split(word):
    """The letters of a word, its number, and its digits."""
    name, _, digits = word.partition(":")
    letters = name.rstrip("0123456789")
    return letters, int(name[len(letters):] or 0), digits


ABORTS = {("Transport", "Size"): 104, ("Session", "State"): 102, ("Upper", "Context"): 103}


def fault_of(layer, name, at):
    """A TSDU over its limit, what may not come now and a context that isn't accepted have numbers of their own; other octets are
    outside the grammar, at a place where they are FTAM's. Any other fault of transport shuts the link without a word."""
    if layer != "Transport" or name == "Size":
        raise Outside(ABORTS.get((layer, name), 101), int(at) if layer == "Ftam" else 0)


def message_in(word, trace, party):
    """The message of an indication; nothing where it has none."""
    letters, serial, digits = split(word)
    transfer = party.transfer
    if letters == "Fault":
        return fault_of(*word.split(":")[1:])
    if letters in ("Associate+", "Associate-", "Release", "Cancel", "Item"):
        return pdu_in(digits)
    if letters == "Check":
        return Check()
    if letters in ("Acknowledged", "Restart"):
        # the number of the first check of the transfer
        base = None if transfer is None else sessions.next_serial(trace) - len(transfer.checks)
        if letters == "Restart":
            point = pdu_in(digits).point
            if base is not None and serial != base + point:
                raise Outside(101)
            return Restart(point)
        if base is None or serial - base + 1 < 0 or serial >= sessions.next_serial(trace):
            raise Outside(102)
        return Acknowledge(serial - base + 1)
    if letters in ("Abort", "Accepted+", "Accepted-", "Refused", "Released", "Restarted", "Cancelled"):
        return None
    return element_in(word)


def request_of(said, word, end):
    """The request of what is said in answer to an indication."""
    letters, serial, _ = split(word)
    digits = value_of(said).spelled().hex() if not isinstance(said, (Checkpoint, Acknowledge)) else ""
    if isinstance(said, InitializeResponse):
        return f"Refuse:{digits}" if said.refused else f"Accept{letters[-1]}:{digits}"
    if isinstance(said, TerminateResponse):
        return f"Released:{digits}"
    if isinstance(said, CancelResponse):
        return f"Cancelled:{digits}"
    if isinstance(said, RestartResponse):
        return f"Restarted{serial}:{digits}"
    if isinstance(said, Checkpoint):
        return f"Check{sessions.next_serial(end.trace)}"
    if isinstance(said, Acknowledge):
        return f"Acknowledge{serial}"
    if isinstance(said, Abort):
        return f"Abort:{digits}" if any(unit.letter in "Aa" for _, unit in end.trace) else "Abort"
    return f"Item:{digits}"


# ---- the responder


class Stopped(Exception):
    """The disk fails within a commit."""


class Full(Exception):
    """A record would end past the limit."""


def end_of_first(store):
    """Where the first record of a new store ends that puts one new file: it stands behind an area that is made for it, since it
    ends past the limit in the first one (docs/STORE.md)."""
    (file,) = store.files
    text = 2 + len(file.name)
    stamp = 8 + 2 + len(file.created.identity)
    record = 4 + 1 + text + 1 + 7 + 4 + stamp + 3 + 4 + 4 + 4 * len(file.units)
    area = 1 + 4 + 4 + 1
    return 34 + 4 + record + 1, 34 + area + 4 + record + 1


class Responder:
    """Associations over a filestore. `budget` is how many calls of a commit the disk still answers, none where all."""

    def __init__(self, store, budget=None, limit=LIMIT):
        self.store, self.budget, self.limit, self.ends, self.replies = store, budget, limit, {}, []
        self.before = None  # the filestore before the message in whose commit the disk failed
        self.measures, self.written = False, 0  # about how many octets all records have, if that is measured

    def speak(self, link, octets, shut):
        if octets or shut:
            self.replies.append((link, octets, shut))

    def arrives(self, link):
        if link in self.store.parties:
            return
        if len(self.store.parties) >= MOST_LINKS:
            self.speak(link, b"", True)
            return
        self.store.arrives(link)
        self.ends[link] = End("O")

    def ended(self, link):
        if link in self.store.parties:
            self.store.breaks(link)

    def hears(self, link, moment, octets):
        """What is said to a packet is said before the next one is heard."""
        while octets and link in self.store.parties:
            end = self.ends[link]
            piece, octets = octets[: end.wanted], octets[end.wanted :]
            told, sent = len(end.told), len(end.sent)
            end.hear(piece)
            self.speak(link, end.sent[sent:], False)
            for word in end.told[told:]:
                self.told(link, moment, word)
            if link in self.store.parties and end.ending != OPEN:
                self.store.breaks(link)
                self.speak(link, b"", True)

    def told(self, link, moment, word):
        party = self.store.parties.get(link)
        if party is None:
            return
        end, message = self.ends[link], None
        setting = Setting(moment, sessions.next_serial(end.trace), sessions.sync(end.trace)[1] and sessions.token(end.trace) == "O",
                          split(word)[0] == "Associate+")  # fmt: skip
        try:
            message = message_in(word, end.trace, party)
        except Outside as outside:
            said = self.store.faults(link, outside.number, outside.place)
        else:
            said = [] if message is None else self.take(link, message, setting)
        others = [(to, each) for to, each in said if to != link]
        for to, each in others:
            self.say(to, [each], word)
        self.say(link, [each for to, each in said if to == link], word)

    def take(self, link, message, setting):
        """A message, whose changes are committed before anything is said."""
        if self.budget is None and not self.measures and self.limit == LIMIT:
            return take(self.store, link, message, setting)
        before = copy.deepcopy(self.store)
        said = take(self.store, link, message, setting)
        if tables_words(before) != tables_words(self.store):
            self.written += 20 + sum(len(word) for word in entries_of(self.store) if word not in entries_of(before))
        if tables_words(before) != tables_words(self.store) and self.limit < LIMIT:
            assert not entries_of(before), "a limit is known for the first record alone"
            first, other = end_of_first(self.store)
            if first > self.limit:
                self.before = before
                raise Full(f"Full:{other}:{self.limit} ")
        if tables_words(before) != tables_words(self.store) and self.budget is not None:
            if self.budget < COMMIT:
                self.before = before
                raise Stopped
            self.budget -= COMMIT
        return said

    def say(self, link, said, word):
        end, octets = self.ends[link], b""
        for each in said:
            sent = end.say(request_of(each, word, end))
            assert sent is not None or isinstance(each, Checkpoint), (link, each)
            octets += sent or b""
        self.speak(link, octets, link not in self.store.parties)

    def deliver(self, event):
        """The replies to an event."""
        self.replies = []
        sign, link, moment, octets = event
        if sign == "+":
            self.arrives(link)
        elif sign == "-":
            self.ended(link)
        else:
            self.hears(link, moment, octets)
        return self.replies


# ---- lives


class Life:
    """A life by its words."""

    def __init__(self, words):
        self.plan = dict(disk=0, next=0, send=0, stop=0, limit=LIMIT)
        self.events, self.users = [], []
        for word in words.split():
            if word.startswith("user="):
                identity, colon, digits = word[5:].partition(":")
                self.users.append(User(identity, bytes.fromhex(digits).decode("latin-1") if colon else None))
            elif "=" in word:
                name, number = word.split("=")
                self.plan[name] = int(number)
            elif word[0] in "+-":
                self.events.append((word[0], int(word[1:]), 0, b""))
            else:
                place, digits = word.split("<")
                link, _, moment = place.partition("@")
                digits, _, count = digits.partition("*")
                self.events.append(("<", int(link), int(moment or 0), bytes.fromhex(digits) * int(count or 1)))

    def broken_after(self, count):
        """The first so many octets, and then the end of each link that arrived."""
        front, ends = [], []
        for sign, link, moment, octets in self.events:
            if sign == "+":
                ends.append(("-", link, 0, b""))
            if sign == "<":
                octets = octets[:count]
                count -= len(octets)
            front.append((sign, link, moment, octets))
            if count == 0:
                break
        self.events = front + ends


class Failing:
    """How many calls of commits the disk answers in a life, and whether it is opened."""

    def __init__(self, plan):
        disk = plan["disk"] - OPENING - 1 if plan["disk"] else None
        stop = plan["stop"] - COUNTED - 1 if plan["stop"] else None
        self.budget = min((each for each in (disk, stop) if each is not None), default=None)
        self.opens = self.budget is None or self.budget >= 0


def replies_words(replies):
    return "".join(f"{link}:{shown_octets(octets)}{'! ' if shut else ' '}" for link, octets, shut in replies)


class Run:
    """Lives of one store, and what is told of them."""

    def __init__(self):
        self.store, self.words = Filestore(), ""
        self.failed = None  # the responder whose disk failed, and at which call of a commit

    def deliver(self, life, later):
        failing = Failing(life.plan)
        if not failing.opens:
            self.words += "DiskFault "
            return
        responder = Responder(self.store, failing.budget, life.plan["limit"])
        if later:
            self.words += tables_words(self.store)
        try:
            for event in life.events:
                self.words += replies_words(responder.deliver(event))
        except Stopped:
            self.failed = responder
            self.words += "DiskFault "
            return
        except Full as full:
            self.store = responder.before
            self.words += str(full)
            return
        if life.events:
            self.words += "= " + tables_words(self.store)

    def serve(self, life):
        failing, plan = Failing(life.plan), life.plan
        if not failing.opens:
            self.words += "DiskFault "
            return
        responder, taken, notes, links = Responder(self.store, failing.budget), [], {"shut": {}, "failed": {}}, 0
        sends, told = 0, f"served {sum(event[0] == '+' for event in life.events)} {len(life.events)} "
        for number, event in enumerate(life.events, 1):
            if number == plan["next"]:
                told = "LinksFault "
                break
            try:
                replies, lost = responder.deliver(event), []
            except Stopped:
                self.failed, told = responder, "DiskFault "
                break
            for link, octets, shut in replies:
                if octets and link not in lost:
                    sends += 1
                    if sends == plan["send"]:
                        octets = octets[: len(octets) // 2]
                        notes["failed"].setdefault(link, number)
                        lost.append(link)
                    taken.append(f"{link}:{shown_octets(octets)} ")
                if shut:
                    notes["shut"].setdefault(link, number)
            for link in lost:
                responder.ended(link)
        else:
            if plan["next"] == len(life.events) + 1:
                told = "LinksFault "
        self.words += "".join(taken)
        self.words += "".join(f"{name} {link}@{number} " for name in notes for link, number in notes[name].items()) + told

    def crash(self, form):
        """What a stop at a call of a commit leaves: its changes stand where the gate was written and isn't lost."""
        if self.failed is not None:
            stands = self.failed.budget >= 2 and form != "lose"
            self.store = self.store if stands else self.failed.before
        self.failed = None
        self.store.stops()


def told_of(line, change=None):
    """What is told of a run; `change` is done to its first life."""
    first, *later = line.split(" / ")
    way, _, words = first.partition(" ")
    life, run = Life(words), Run()
    run.store.users = life.users
    if change:
        change(life)
    if way == "deliver":
        run.deliver(life, False)
    else:
        run.serve(life)
    for words in later:
        form, _, words = words.partition(" ")
        run.crash(form)
        run.words += "/ "
        run.deliver(Life(words), True)
    return run.words


# ---- sweeps


def told_fronts(line):
    count = sum(len(event[3]) for event in Life(line.split(" / ")[0].partition(" ")[2]).events)
    told = "".join(told_of(line, lambda life: life.broken_after(octets)) for octets in range(count + 1))
    return f"{count} {digest_of(told.encode('latin-1'))}"


def told_each(name, line):
    without, told = told_of(line), ""
    call = 1
    while True:
        words = told_of(line, lambda life: life.plan.__setitem__(name, call))
        if words == without:
            return f"{call} {digest_of(told.encode('latin-1'))}"
        told += words
        call += 1


def answer(line):
    """What a line is answered."""
    if line.startswith("#"):
        return line
    way, _, rest = line.partition(" ")
    if way == "cut":
        return told_of(rest).rstrip()
    if way == "fronts":
        return told_fronts(rest)
    if way == "each":
        name, _, line = rest.partition(" ")
        return told_each(name, line)
    return told_of(line).rstrip()
