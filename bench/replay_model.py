"""What `replay` prints of a script, for bench/replays: lines as what they say, and incarnations of a responder (profile).

It is made of plain models that know nothing of the program: the filestore (filestore_model.py), the ends of an association
(stack_end.py), and where a store writes its records (store_model.py). Written from the description of scripts alone.
"""

import copy
import datetime
import os
import re
import sys

sys.path.insert(0, os.path.dirname(os.path.realpath(__file__)))
import filestore_model as model
import stack_end
import store_model
from filestore_model import *  # all names of it are used as if they stood here
from message_octets import element_of, element_value, message_of, value_of
from stack_end import OPEN, BROKEN, End, sessions, upper
from store_model import Full, Journal, NO_LIMIT, NOTHING, Stopped, USUAL_LIMIT, tables_of

stack_end.shown = lambda octets: octets.hex().upper()  # strings of any length are told whole
INPUT_LIMIT, MOST_USERS, MOST_LINKS = 67108864, 256, 64
FIRST_MOMENT = datetime.datetime(1970, 1, 1)

# Lines

NUMBER, HEX, LINK = r"(0|[1-9][0-9]*)", r"((?:[0-9A-F][0-9A-F])+)", r"([1-9][0-9]*)"
FORMS = {
    "limit": (rf"limit {NUMBER}", (1 << 64) - 1),
    "user": (rf"user ([!-~]{{1,255}}) {HEX}",),
    "life": (r"life",),
    "stop": (rf"life {LINK} (keep|lose)", (1 << 32) - 1),
    "fill": (rf"life {LINK} fill ([0-9A-F][0-9A-F])", (1 << 32) - 1),
    "arrive": (rf"arrive {LINK} (raw|plain|sync)", (1 << 32) - 1),
    "octets": (rf"octets {LINK} {NUMBER} {HEX}", (1 << 32) - 1, 253402300799),
    "said": (rf"said {LINK} {NUMBER} {HEX}", (1 << 32) - 1, 253402300799),
    "check": (rf"check {LINK} {NUMBER}", (1 << 32) - 1, 253402300799),
    "ack": (rf"ack {LINK} {NUMBER} {NUMBER}", (1 << 32) - 1, 253402300799, 1000000),
    "restart": (rf"restart {LINK} {NUMBER} {NUMBER}", (1 << 32) - 1, 253402300799, 1000000),
    "pass": (rf"pass {LINK} {NUMBER}", (1 << 32) - 1, 253402300799),
    "end": (rf"end {LINK}", (1 << 32) - 1),
}
OF_CALLERS = ("said", "check", "ack", "restart", "pass")


def said_in(octets):
    """The messages of these octets; none where they are no whole values, or one of them means no message."""
    made = []
    while octets:
        count, whole = upper.front_of(octets)
        if not whole:
            return None
        value = upper.part_at(upper.Text(octets[:count], list(range(count)), count), 0).value()
        try:
            if value.group == 2:
                digits, _ = stack_end.pdu_of(value)
            else:
                digits = element_octets(stack_end.element_of(value)).hex()
        except stack_end.Fault:
            return None
        made.append(bytes.fromhex(digits))
        octets = octets[count:]
    return made


def element_octets(word):
    """The one spelling of an element that stack_end tells."""
    name, _, digits = word.partition(":")
    if name in ("Enter", "Exit"):
        return element_value(Enter() if name == "Enter" else Exit()).spelled()
    octets = bytes.fromhex(digits)
    if name.startswith("Descriptor"):
        return element_value(Descriptor(octets.decode("latin-1") if ":" in word else None, name.endswith("+"))).spelled()
    number = int(name.removeprefix("String"))
    return element_value(Binary(tuple(octets)) if number == 4 else Text(number, tuple(octets))).spelled()


def line_of(line):
    """What a line says: its word and the rest of it; none where it is outside the grammar."""
    for word, (form, *most) in FORMS.items():
        found = re.fullmatch(form, line)
        if not found:
            continue
        parts = [int(each) if each.isdigit() and word != "user" and place < len(most) else each
                 for place, each in enumerate(found.groups())]
        if any(part > limit for part, limit in zip(parts, most)):
            return None
        if word == "user":
            parts[1] = bytes.fromhex(parts[1])
            if len(parts[1]) > 255:
                return None
        elif word == "octets":
            parts[2] = bytes.fromhex(parts[2])
        elif word == "said":
            parts[2] = said_in(bytes.fromhex(parts[2]))
            if parts[2] is None:
                return None
        return (word, *parts)
    return None


class BadLine(Exception):
    pass


class Life:
    def __init__(self, limit, stop, form):
        self.limit, self.stop, self.form, self.lines = limit, stop, form, []


class Script:
    """The users and the incarnations of a script; a bad line is raised by its number."""

    def __init__(self, octets):
        self.users, self.lives = [], []
        limit, last, says = USUAL_LIMIT, 0, self.lines_of(octets)
        for place, line in enumerate(says):
            good = line is not None
            word = line[0] if good else None
            if word == "limit":
                limit = line[1]
            elif word == "user":
                good = not self.lives and len(self.users) < MOST_USERS and all(each.identity != line[1] for each in self.users)
                self.users.append(User(line[1], line[2].decode("latin-1")))
            elif word in ("life", "stop", "fill"):
                form = None if word == "life" else line[2] if word == "stop" else int(line[2], 16)
                self.lives.append(Life(limit, line[1] if word != "life" else None, form))
                last = 0
            elif good:
                good = bool(self.lives) and self.is_on_its_link(line, self.arrivals(says, place))
                if word == "arrive":
                    good, last = good and line[1] > last, line[1]
                if good:
                    self.lives[-1].lines.append(line)
            if not good:
                raise BadLine(place + 1)

    @staticmethod
    def lines_of(octets):
        lines, counted = [], 0
        for line in octets.splitlines(keepends=True) if False else re.findall(rb"[^\n]*\n|[^\n]+$", octets):
            counted += len(line)
            if counted > INPUT_LIMIT or not line.endswith(b"\n"):
                return lines + [None]
            lines.append(line_of(line[:-1].decode("latin-1")))
        return lines

    @staticmethod
    def arrivals(says, place):
        """The links that arrive in the life of this line, each as it first does."""
        def begins(line):
            return line is not None and line[0] in ("life", "stop", "fill")

        first, last = place, place
        while first >= 0 and not begins(says[first]):
            first -= 1
        while last < len(says) and not begins(says[last]):
            last += 1
        found = {}
        for line in says[first + 1:last]:
            if line is not None and line[0] == "arrive":
                found.setdefault(line[1], line[2])
        return found

    @staticmethod
    def is_on_its_link(line, arrivals):
        how = arrivals.get(line[1])
        if line[0] in OF_CALLERS:
            return how in ("plain", "sync")
        return how == "raw" if line[0] == "octets" else how is not None


# The responder

def octets_of_said(said):
    return value_of(dated(said)).spelled()


def date(moment):
    return (FIRST_MOMENT + datetime.timedelta(seconds=moment)).strftime("%Y%m%d%H%M%SZ").encode().rjust(15, b"0")


def dated(said):
    """Attributes are told with their dates."""
    if not isinstance(said, ReadAttribResponse) or said.attributes is None:
        return said
    stamps = {name: Stamp(date(stamp.moment), stamp.identity)
              for name in ("created", "modified", "read", "changed")
              if (stamp := getattr(said.attributes, name)) is not None}
    return dataclasses.replace(said, attributes=dataclasses.replace(said.attributes, **stamps))


class Called:
    """A link of the responder."""

    def __init__(self, number):
        self.number, self.end, self.base = number, End("O"), None

    def next(self):
        return sessions.next_serial(self.end.trace)

    def is_accepted(self):
        return any(unit.letter in "Aa" for _, unit in self.end.trace) and not any(
            unit.letter in "gx" for _, unit in self.end.trace)


TRIED = []  # the tables after each good item of the group that is tried


def noting(takes):
    def noted(store, party, request, setting):
        sent = takes(store, party, request, setting)
        TRIED.append(tables_of(store))
        return sent
    return noted


for each, takes in list(TAKES.items()):
    TAKES[each] = noting(takes)


class Responder:
    """It has the filestore that the disk represents, and links."""

    def __init__(self, store, journal):
        self.store, self.journal, self.links, self.told = store, journal, {}, []

    def tell(self, link, octets):
        if octets:
            self.told.append((link, octets))

    def shut(self, link):
        self.told.append((link, None))
        self.links.pop(link, None)

    def gone(self, link):
        """Its party is gone, and so is the link."""
        if link in self.store.parties:
            self.store.breaks(link)
        self.shut(link)

    def arrives(self, link):
        if len(self.links) >= MOST_LINKS:
            self.told.append((link, None))
            return
        self.links[link] = Called(link)
        self.store.arrives(link)

    def ends(self, link):
        if link in self.links:
            del self.links[link]
            self.store.breaks(link)

    def hears(self, link, moment, octets):
        while octets and link in self.links:
            called = self.links[link]
            end, count = called.end, called.end.wanted
            sent, told = len(end.sent), len(end.told)
            end.hear(octets[:count])
            octets = octets[count:]
            self.tell(link, end.sent[sent:])
            for word in end.told[told:]:
                if link in self.links:
                    self.indication(called, moment, word)
            if link in self.links and end.ending != OPEN:
                self.gone(link)

    def indication(self, called, moment, word):
        name, _, digits = word.partition(":")
        letters = "".join(letter for letter in name if letter.isalpha())
        number = int("".join(letter for letter in name if letter.isdigit()) or 0)
        if letters == "Fault":
            self.fault(called, *digits.split(":"))
        elif letters == "Abort" and not digits:
            self.takes(called, moment, Break(), number)
        elif letters in ("String", "Descriptor", "Enter", "Exit"):
            self.takes(called, moment, message_of(value_in_octets(element_octets(word))), number)
        elif letters == "Check":
            self.takes(called, moment, Check(), number)
        elif letters == "Acknowledged":
            self.acknowledged(called, moment, number)
        elif letters == "Restart":
            self.restarted(called, moment, number, message_of(value_in_octets(bytes.fromhex(digits))))
        else:
            self.takes(called, moment, message_of(value_in_octets(bytes.fromhex(digits))), number,
                       letters == "Associate" and name.endswith("+"))

    def fault(self, called, layer, name, at):
        if layer == "Transport" and name != "Size":
            return self.gone(called.number)
        number = 104 if layer == "Transport" else 102 if (layer, name) == ("Session", "State") else (
            103 if name == "Context" else 101)
        self.aborts(called, number, int(at) if layer == "Ftam" else 0)

    def aborts(self, called, number, place):
        self.say(called, Abort(number, place), 0)
        self.gone(called.number)

    def acknowledged(self, called, moment, serial):
        """A number from before the transfer is below its start."""
        point = serial - called.base + 1 if called.base is not None else 0
        self.takes(called, moment, Acknowledge(max(point, -1)), serial)

    def restarted(self, called, moment, serial, request):
        party = self.store.parties[called.number]
        if party.transfer is not None and party.group is None and serial != called.base + request.point:
            return self.aborts(called, 101, 0)
        self.takes(called, moment, Restart(request.point), serial)

    def setting(self, called, moment, message, serial, sync):
        trace = called.end.trace
        number = called.next()
        if isinstance(message, CancelRequest) and sessions.unanswered(trace):
            number = max(number, sessions.unanswered(trace)[1].serial)
        agreed = sync if isinstance(message, InitializeRequest) else sessions.sync(trace)[1]
        return Setting(moment, number, sessions.token(trace) == "O", agreed)

    def takes(self, called, moment, message, serial, sync=False):
        """A message comes: what it changes is on the disk before anything is said."""
        link = called.number
        before = copy.deepcopy(self.store) if self.journal.may_end() else None
        setting = self.setting(called, moment, message, serial, sync)
        next_before = called.next()
        TRIED.clear()
        is_group = isinstance(message, EndGroupRequest)
        tables = tables_of(self.store)
        sent = take(self.store, link, message, setting)
        self.commits(tables, tables_of(self.store), is_group, before)
        if isinstance(message, (ReadRequest, WriteRequest)):
            called.base = next_before
        for to, said in sent:
            if isinstance(said, RecoverResponse) and said.moving:
                called.base = next_before - said.point
            other = self.links[to]
            self.say(other, said, serial, sync)
            if to not in self.store.parties:
                if said is sent[-1][1] or to != link:
                    self.shut(to)
        if link in self.links and link not in self.store.parties:
            self.shut(link)

    def commits(self, old, new, is_group, before):
        if old == new:
            return
        steps = [old] + (TRIED if is_group else [new])
        lengths = [each for one, two in zip(steps, steps[1:]) for each in store_model.changes(one, two)]
        assert lengths and steps[-1] == new, (old, new)
        try:
            self.journal.commit(store_model.record(lengths), store_model.snapshot(old))
        except Stopped as stopped:
            if not stopped.stand:
                self.store.__dict__ = before.__dict__
            raise
        except Full:
            self.store.__dict__ = before.__dict__
            raise

    def say(self, called, said, serial, sync=False):
        end = called.end
        if isinstance(said, Abort):
            word = "Abort:" + octets_of_said(said).hex() if called.is_accepted() else "Abort"
        elif isinstance(said, Checkpoint):
            word = f"Check{called.next()}"
        elif isinstance(said, Acknowledge):
            word = f"Acknowledge{serial}"
        else:
            digits = octets_of_said(said).hex()
            name = {InitializeResponse: "Accept+" if sync else "Accept-", TerminateResponse: "Released",
                    CancelResponse: "Cancelled"}.get(type(said), "Item")
            if isinstance(said, InitializeResponse) and said.refused:
                name = "Refuse"
            elif isinstance(said, RestartResponse) and sessions.sync(end.trace)[1]:
                name = f"Restarted{serial}"
            word = f"{name}:{digits}"
        octets = end.say(word)
        assert octets is not None or isinstance(said, Checkpoint), word
        self.tell(called.number, octets or b"")


def value_in_octets(octets):
    return upper.part_at(upper.Text(octets, list(range(len(octets))), len(octets)), 0).value()


# The calling ends of a script

class Caller:
    def __init__(self, sync):
        self.end, self.sync, self.base = End("I", sync), sync, 1

    def word_of(self, octets):
        value = value_in_octets(octets)
        digits = octets.hex()
        if value.group != 2:
            return f"Item:{digits}"
        number = value.tag
        if number in (1, 3):
            return None
        if number in (38, 40) and self.sync:
            return None
        if number == 0:
            return f"Associate{'+' if self.sync else '-'}:{digits}"
        if number == 39 and self.sync:
            serial = self.base + message_of(value).point
            return f"Restart{serial}:{digits}" if 0 <= serial <= 999999 else None
        name = {2: "Release", 37: "Cancel", 4: "Abort", 5: "Abort"}.get(number, "Item")
        return f"{name}:{digits}"

    def says(self, octets):
        """A message is said where it may be; its packets."""
        word = self.word_of(octets)
        packets = self.says_word(word) if word else b""
        if packets and octets[0] in (0xBF, 0x9F) and octets[1] in (32, 33):
            self.base = sessions.next_serial(self.end.trace)
        return packets

    def says_word(self, word):
        return self.end.say(word) or b""

    def line(self, line):
        if line[0] == "said":
            return b"".join(map(self.says, line[3]))
        if line[0] == "check":
            number = sessions.next_serial(self.end.trace)
            return self.says_word(f"Check{number}") if number <= 999999 else b""
        if line[0] == "ack":
            number = self.base + line[3] - 1
            return self.says_word(f"Acknowledge{number}") if 0 <= number <= 999999 else b""
        if line[0] == "restart":
            return self.says(value_of(RestartRequest(line[3])).spelled())
        return self.says_word("Pass")

    def hears(self, link, octets):
        """The lines of what is heard."""
        while octets:
            count, told = self.end.wanted, len(self.end.told)
            self.end.hear(octets[:count])
            octets = octets[count:]
            for word in self.end.told[told:]:
                line = self.heard(word)
                if line:
                    yield line.format(link)
            if self.end.ending != OPEN:
                return

    def heard(self, word):
        name, _, digits = word.partition(":")
        if name.startswith("Check"):
            return f"check {{}} {int(name[5:]) - self.base + 1}"
        if name.startswith("Acknowledged"):
            return f"ack {{}} {int(name[12:]) - self.base + 1}"
        if name == "Fault" or name in ("Abort", "Refused") and not digits:
            return None
        if name.startswith(("String", "Descriptor")) or name in ("Enter", "Exit"):
            return f"reply {{}} {element_octets(word).hex().upper()}"
        message = message_of(value_in_octets(bytes.fromhex(digits)))
        if isinstance(message, RecoverResponse) and message.moving:
            self.base = sessions.next_serial(self.end.trace) - message.point
        return f"reply {{}} {digits.upper()}"


# A life, and all of them

def lines_heard(told, callers):
    """What was told in an event, neighbouring octets of a link at once."""
    joined = []
    for link, octets in told:
        if octets is not None and joined and joined[-1][0] == link and joined[-1][1] is not None:
            joined[-1] = (link, joined[-1][1] + octets)
        else:
            joined.append((link, octets))
    for link, octets in joined:
        if octets is None:
            yield f"shut {link}"
        elif link in callers:
            yield from callers[link].hears(link, octets)
        else:
            yield f"octets {link} {octets.hex().upper()}"


def event(responder, callers, happens):
    responder.told = []
    happens()
    return list(lines_heard(responder.told, callers))


def happens(responder, callers, line):
    """The lines that a line of the script makes."""
    word, link = line[:2]
    if word == "arrive":
        lines = event(responder, callers, lambda: responder.arrives(link))
        if line[2] != "raw":
            callers[link] = Caller(line[2] == "sync")
            lines += event(responder, callers, lambda: responder.hears(link, 0, callers[link].end.sent))
        return lines
    if word == "end":
        return event(responder, callers, lambda: responder.ends(link))
    octets = line[3] if word == "octets" else callers[link].line(line) if link in callers else b""
    return event(responder, callers, lambda: responder.hears(link, line[2], octets))


def lived(life, store, journal):
    """The lines of a life; the filestore and the journal are left as its end leaves them."""
    try:
        journal.opens(life.limit, life.stop, life.form)
        responder, callers = Responder(store, journal), {}
        for line in life.lines:
            yield from happens(responder, callers, line)
    except Stopped:
        yield "stopped"
    except Full:
        yield "full"
    store.stops()


def file_line(file):
    return "\t".join((f"ftam-{file.contents.entry}", str(file.octets()), str(file.version), date(file.created.moment).decode(),
                      file.name))


def replayed(octets):
    """The lines, and the status."""
    try:
        script = Script(octets)
    except BadLine as bad:
        return [f"bad line {bad}"], 11
    store, journal = Filestore((), script.users), Journal()
    if script.users:
        journal.opens(NO_LIMIT, None, None)
        tables = tables_of(store)
        journal.commit(store_model.record(store_model.changes(NOTHING, tables)), store_model.snapshot(NOTHING))
    lines = [line for life in script.lives for line in lived(life, store, journal)]
    files = sorted(store.files, key=lambda file: file.name.encode("latin-1"))
    return lines + [f"files {len(files)}"] + [file_line(file) for file in files], 0


if __name__ == "__main__":
    lines, status = replayed(sys.stdin.buffer.read())
    sys.stdout.write("".join(f"{line}\n" for line in lines))
    sys.exit(status)
