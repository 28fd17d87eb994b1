"""One end of an association over RFC 1006, ISO 8073 class 0, ISO 8327, ISO 8823 and ISO 8650, with the PDUs of FTAM (ISO
8571-4; their fields are this profile's) on them: what a stream tells it and what it sends, told by the standards and this
profile alone. The whole trace of the session connection is kept, and all is counted in it.

The rules of the layers are those of bench/streams (TPDUs), bench/sessions (which SPDU when) and bench/pdus (PDUs); what
octets are SPDUs stands here, and what octets are user data in stack_user_data.py.
"""

import stack_user_data as upper
from stack_user_data import pdus, script

streams = script("streams")
sessions = script("sessions")
Spdu = sessions.Spdu

OPEN, PARTLY, REFUSED, BROKEN, OVER = "open partly refused broken over".split()

KINDS = {13: "CN", 14: "AC", 12: "RF", 9: "FN", 10: "DN", 25: "AB", 26: "AA", 1: "GT"}
AFTER_GT = {1: "DT", 49: "MIP", 50: "MIA", 53: "RS", 34: "RA"}
# The parameters of each SPDU, and those that are required.
PARAMETERS = dict(CN=(5, 20, 193, 194), AC=(5, 20, 193), RF=(50,), FN=(193,), DN=(193,), AB=(17, 193), AA=(), GT=(16,),
                  DT=(), MIP=(42,), MIA=(42,), RS=(26, 27, 42, 193), RA=(26, 42, 193))  # fmt: skip
REQUIRED = dict(CN=(20,), AC=(20,), RF=(50,), MIP=(42,), MIA=(42,), RS=(27, 42), RA=(42,))
CARRIERS = dict(C="CN", c="CN", A="AC", a="AC", n="RF", f="FN", g="DN", d="DT", r="RS", s="RS", e="RA", x="AB")


class Fault(Exception):
    """What ends hearing: a layer, a name and a place."""

    def __init__(self, layer, name, at):
        super().__init__(layer, name, at)
        self.layer, self.name, self.at = layer, name, at


# ---- octets as SPDUs (ISO 8327, 8.3)


def length_at(octets, at, end):
    """A length, and the place after it; `end` is that of what holds it, which it may not pass."""
    if at >= end:
        raise Fault("Session", "Length", at)
    length, after = octets[at], at + 1
    if length == 255:
        if after + 2 > end:
            raise Fault("Session", "Length", at)
        length, after = int.from_bytes(octets[after : after + 2], "big"), after + 2
    if after + length > end:
        raise Fault("Session", "Length", at)
    return length, after


def serial_of(value):
    return int(value) if 1 <= len(value) <= 6 and all(48 <= octet <= 57 for octet in value) else None


def field_of(kind, code, value, grouped):
    """The name of the field of a parameter and what it is; none where it hasn't its form."""
    single = value[0] if len(value) == 1 else None
    if code == 16:
        return "given", True if single == 4 else None
    if code == 17:
        return "abort", single
    if code == 19:
        return "options", 0 if single == 0 else None
    if code == 22:
        return "version", 2 if single == 2 else None
    if code == 20:
        return "units", int.from_bytes(value, "big") if len(value) == 2 else None
    if code == 23:
        return "first", serial_of(value)
    if code == 26:
        return ("setting" if grouped else "tokens"), single if single in ((0,) if grouped else (0, 4)) else None
    if code == 27:
        return "resync", single if single in (0, 1) else None
    if code == 42:
        return "serial", serial_of(value)
    if code == 50:
        return "reason", bytes(value) or None
    most = {193: 512, 194: 10_240}[code] if kind == "CN" else 65_535
    return "data", bytes(value) if len(value) <= most else None


def parameters_in(kind, octets, at, end, begin, fields, grouped=False):
    """Puts what the parameters say into the fields; the last one of a name counts."""
    known = (19, 22, 23, 26) if grouped else PARAMETERS[kind]
    while at < end:
        code = octets[at]
        length, after = length_at(octets, at + 1, end)
        at = after + length
        if code not in known:
            continue
        if code == 5:
            parameters_in(kind, octets, after, at, begin, fields, True)
            continue
        name, found = field_of(kind, code, octets[after:at], grouped)
        if found is None:
            raise Fault("Session", "Value", begin)
        fields[name] = found


def spdu_at(kind, octets, begin):
    """The SPDU that begins there, and the place after its parameters."""
    length, after = length_at(octets, begin + 1, len(octets))
    fields = {}
    parameters_in(kind, octets, after, after + length, begin, fields)
    required = {20: "units", 42: "serial", 27: "resync", 50: "reason"}
    if any(required[code] not in fields for code in REQUIRED.get(kind, ())):
        raise Fault("Session", "Missing", begin)
    data = fields.pop("data", b"")
    if kind == "RF":
        data = fields["reason"][1:] if fields["reason"][0] == 2 else b""
    return Spdu(kind, fields, data), after + length


def spdus_in(tsdu):
    """The SPDUs of a TSDU, each with its place."""
    if not tsdu:
        raise Fault("Session", "Code", 0)
    kind = KINDS.get(tsdu[0])
    if kind is None:
        raise Fault("Session", "Code", 0)
    first, end = spdu_at(kind, tsdu, 0)
    found = [(0, first)]
    if kind == "GT" and end < len(tsdu):
        kind = AFTER_GT.get(tsdu[end])
        if kind is None:
            raise Fault("Session", "Code", end)
        begin = end
        second, end = spdu_at(kind, tsdu, begin)
        if kind == "DT":
            second, end = second._replace(data=bytes(tsdu[end:])), len(tsdu)
        found.append((begin, second))
    if end < len(tsdu):
        raise Fault("Session", "Length", end)
    return found


# ---- values as PDUs and data elements


ELEMENT_FIELDS = pdus.row((0, pdus.Text(), pdus.OPTIONAL), (1, pdus.Bool(), True))


def fault_of(answer):
    """The fault that bench/pdus tells of a value."""
    name, *numbers = answer.split(" ")
    return Fault("Ftam", name.capitalize(), 0 if name == "unknown" else int(numbers[0]))


def pdu_of(value):
    """The octets of a PDU in its one spelling, and its number."""
    answer = pdus.judged(value)
    if not answer.startswith("pdu "):
        raise fault_of(answer)
    return answer[4:], value.tag


def wrong_segment(value):
    """The place of the outermost segment that isn't an octet string, in a string in segments."""
    for place, part in enumerate(value.parts):
        if (part.group, part.tag) != (0, 4) or (part.parts is not None and wrong_segment(part) is not None):
            return place
    return None


def element_of(value):
    """A data element as a word."""
    tag, built = (value.group, value.tag), value.parts is not None
    if tag in ((0, 4), (0, 22), (0, 25), (0, 26), (0, 27)):
        if built and wrong_segment(value) is not None:
            raise Fault("Ftam", "Field", wrong_segment(value))
        return f"String{value.tag}:{pdus.octets_of(value).hex().upper()}"
    if tag in ((1, 1), (1, 2)) and not built and not value.octets:
        return "Enter" if value.tag == 1 else "Exit"
    if tag != (1, 0) or not built:
        raise Fault("Ftam", "Unknown", 0)
    found, least = {}, 0
    for place, part in enumerate(value.parts):
        tag = (part.group, part.tag)
        field = next((each for each in ELEMENT_FIELDS if (2, each.tag) == tag and each.tag >= least), None)
        content = None if field is None else pdus.content_of(field.form, part)
        if content is None:
            raise Fault("Ftam", "Field", place)
        if not pdus.in_range(field.form, content):
            raise Fault("Ftam", "Range", field.tag)
        found[field.tag], least = content, field.tag + 1
    name = f":{found[0].hex().upper()}" if 0 in found else ""
    return ("Descriptor+" if found.get(1, True) else "Descriptor-") + name


def shown(word):
    """A word of an answer; of a data element of more than 32 octets the first 12, and how many there are."""
    name, _, digits = word.partition(":")
    if not name.startswith(("String", "Descriptor")) or len(digits) <= 64:
        return word
    return f"{name}:{digits[:24]}..{len(digits) // 2}"


def item_of(sync, value):
    """The word of a value in P-DATA."""
    if value.group != 2:
        return element_of(value)
    digits, number = pdu_of(value)
    if number < 6 or (sync and 37 <= number <= 40):
        raise Fault("Ftam", "Unknown", 0)
    return "Item:" + digits


# The word of each unit with one PDU, and the numbers that this may have; of an RA `E` is the answer to a restart.
SINGLE = dict(c=("Associate", (0,)), a=("Accepted", (1,)), n=("Refused", (1,)), f=("Release", (2,)), g=("Released", (3,)),
              r=("Restart", (39,)), s=("Cancel", (37,)), E=("Restarted", (40,)), e=("Cancelled", (38,)),
              x=("Abort", (4, 5)))  # fmt: skip


def single_of(unit, resync, value):
    """The word of a unit by its one value."""
    digits, number = pdu_of(value)
    letter = unit.letter.lower()
    if letter == "e":
        letter = "E" if resync == "r" else "e"
    name, due = SINGLE[letter]
    if number not in due:
        raise Fault("Ftam", "Unknown", 0)
    if letter in "ca":
        name += "+" if unit.letter.isupper() else "-"
    elif letter in "rE":
        name += str(unit.serial)
    return name + ":" + digits


# ---- an end


class End:
    """One end, by the octets that came to it and the trace of its session connection. `own` is `I` for the calling end."""

    def __init__(self, own, offer=False):
        self.own, self.offer = own, offer
        self.tpdus = streams.End(own == "I")
        self.stream, self.place, self.held, self.wanted = b"", 0, 0, 4
        self.trace, self.told, self.sent = [], [], b""
        self.offers, self.contexts, self.ending = (), [], OPEN
        if own == "I":
            self.sent = streams.packet(bytes.fromhex("06E00000000100"))

    # Hearing.

    def hear(self, octets):
        """What stands in the stream after what was heard before."""
        if self.ending != OPEN:
            return
        self.stream += octets
        try:
            while self.ending == OPEN and self.next_packet():
                pass
        except Fault as fault:
            self.tell(f"Fault:{fault.layer}:{fault.name}:{fault.at}")
            self.ending = REFUSED

    def next_packet(self):
        """Hears the next packet; false where it isn't whole."""
        rest = self.stream[self.place :]
        size = int.from_bytes(rest[2:4], "big")
        whole = len(rest) >= 4 and len(rest) >= size
        try:
            for at in range(min(2, len(rest))):
                if rest[at] != (3, 0)[at]:
                    raise streams.Fault(f"Version {self.place + at}")
            if len(rest) >= 4 and size < 7:
                raise streams.Fault(f"Length {self.place + 3}")
            if whole:
                self.tpdus.check(self.place, rest[4:size])
        except streams.Fault as fault:
            self.held, self.wanted, self.tpdus.tsdu = 0, 4, b""
            self.tpdus.over = not str(fault).startswith("Size")
            name, at = str(fault).split(" ")[:2]
            raise Fault("Transport", name, int(at)) from None
        if whole:
            self.place += size
            self.held, self.wanted = 0, 4
            self.tpdu(rest[4:size])
        else:
            self.held, self.wanted = len(rest), (4 if len(rest) < 4 else size) - len(rest)
        return whole

    def tpdu(self, octets):
        before = len(self.tpdus.units)
        self.tpdus.take(octets)
        if self.tpdus.confirm and self.tpdus.confirm not in self.sent:
            self.sent += self.tpdus.confirm
        for letter, tsdu in self.tpdus.units[before:]:
            if letter == "E":
                self.ending = BROKEN
            elif letter == "D":
                self.tsdu(tsdu)

    def tsdu(self, octets):
        for place, spdu in spdus_in(octets):
            if self.ending == OPEN:
                self.spdu(place, spdu)

    def spdu(self, place, spdu):
        try:
            unit = sessions.receives(self.own, self.trace, spdu)
        except sessions.Fault as fault:
            raise Fault("Session", str(fault).split(" ")[0], place) from None
        if unit is not None:
            self.unit(unit)

    def unit(self, unit):
        """A unit joins the trace where it tells something besides a fault, or has none."""
        waiting = sessions.unanswered(self.trace)
        before = len(self.told)
        fault, primitive = None, upper.Primitive()
        try:
            primitive = self.tell_unit(unit, waiting)
        except Fault as found:
            fault = found
        if fault is not None and len(self.told) == before:
            raise fault
        self.joins(sessions.other(self.own), unit, primitive)
        if fault is not None:
            self.tell(f"Fault:{fault.layer}:{fault.name}:{fault.at}")
            self.ending = PARTLY

    def joins(self, side, unit, primitive):
        """A resynchronization of one's own that lost leaves the trace first."""
        if side != self.own and unit.letter in "rs" and self.trace and self.trace[-1][1].letter in "rs":
            self.trace.pop()
        self.trace.append((side, unit))
        if unit.letter in "Cc":
            self.offers = primitive.offers
            if self.own == "O":
                self.contexts = upper.accepted(self.offers)
        elif unit.letter in "Aa" and self.own == "I":
            self.contexts = upper.chosen(entries(self.offers), primitive.results)
        if unit.letter in "ngx":
            self.ending = OVER

    def tell(self, word):
        self.told.append(word)

    def tell_unit(self, unit, waiting):
        """Appends the words of a unit; answers what its user data are."""
        if unit.letter == "k":
            self.tell(f"Check{unit.serial}")
        elif unit.letter == "l":
            self.tell(f"Acknowledged{unit.serial}")
        if unit.letter not in CARRIERS:
            return upper.Primitive()
        kind = CARRIERS[unit.letter]
        try:
            primitive = upper.read(kind, entries(self.offers) if kind in ("AC", "RF") else self.contexts, unit.data)
        except upper.Fault as fault:
            raise Fault("Upper", fault.name, fault.at) from None
        if kind == "DT":
            for _, value in primitive.values:
                self.tell(item_of(sessions.sync(self.trace)[1], value))
        elif not primitive.values:
            self.tell("Refused" if kind == "RF" else "Abort")
        else:
            self.tell(single_of(unit, waiting and waiting[1].letter, primitive.values[0][1]))
        return primitive

    # Sending.

    def may(self, unit):
        """Whether a unit of session may be sent, whatever its user data are."""
        if self.tpdus.first or self.tpdus.over or self.ending in (BROKEN, OVER):
            return False
        if self.ending == REFUSED:
            return unit.letter == "x"
        return sessions.may(self.own, self.offer, self.trace, unit)

    def say(self, word):
        """Sends a request, `Accept+:A10381010F`, and answers its packets; none where it may not be sent."""
        unit = self.unit_of(word)
        if unit is None or not self.may(unit):
            return None
        tsdu = b"".join(sessions.octets_of(spdu) for spdu in sessions.spdus_of(self.own, unit))
        if len(tsdu) > streams.MOST:
            return None
        before = len(self.tpdus.sent)
        self.tpdus.send(tsdu)
        octets = self.tpdus.sent[before:]
        self.sent += octets
        primitive = upper.Primitive(offers=upper.own_offers()) if unit.letter in "Cc" else upper.Primitive()
        self.joins(self.own, unit, primitive)
        return octets

    def unit_of(self, word):
        """The unit of a request; none where it has none here."""
        name, _, digits = word.partition(":")
        value = bytes.fromhex(digits)
        letters = "".join(letter for letter in name if letter.isalpha())
        number = int("".join(letter for letter in name if letter.isdigit()) or 0)
        sync, mine = sessions.sync(self.trace)[1], sessions.token(self.trace)
        make, contexts = sessions.Unit, self.contexts
        if letters == "Associate":
            return make("C" if name.endswith("+") else "c", 1, None, upper.associate(value))
        if letters == "Pass":
            return make("t", None, sessions.other(self.own))
        if letters == "Check":
            return make("k", number)
        if letters == "Acknowledge":
            return make("l", number)
        if letters == "Refuse" and not value:
            return make("n")
        if letters == "Abort" and not value:
            return make("x")
        if upper.first_of(upper.PCI, contexts) is None or upper.first_of(upper.ACSE, contexts) is None:
            return None
        first = sessions.origin(self.trace)[0]
        if letters == "Accept":
            return make("A" if name.endswith("+") else "a", first, None, upper.answer(self.offers, contexts, 0, value))
        if letters == "Refuse":
            return make("n", data=upper.answer(self.offers, contexts, 1, value))
        if letters == "Release":
            return make("f", data=upper.release(contexts, 2, value))
        if letters == "Released":
            return make("g", data=upper.release(contexts, 3, value))
        if letters == "Abort":
            # It needs an association that was accepted.
            accepted = any(unit.letter in "Aa" for _, unit in self.trace)
            return make("x", data=upper.abort(contexts, value)) if accepted else None
        around = upper.tagged([0x30], upper.data(contexts, value))
        if letters == "Restart":
            return make("r", number, mine, around)
        waiting = sessions.unanswered(self.trace)
        if letters == "Restarted":
            # the answer to a restart, and below to an abandon
            return make("e", number, mine, around) if waiting and waiting[1].letter == "r" else None
        if letters == "Cancel" and sync:
            return make("s", sessions.next_serial(self.trace), "I", around)
        if letters == "Cancelled" and sync:
            if not waiting or waiting[1].letter != "s":
                return None
            return make("e", max(waiting[1].serial, sessions.next_serial(self.trace)), "I", around)
        return self.item(value, sync and mine == self.own)

    def item(self, value, holds):
        """The unit of a value in P-DATA: F-READ passes the token from the calling end, an answer to F-TRANSFER-END, and one
        to F-RECOVER that isn't moving, from the other one."""
        group, built, number, _, _ = upper.header(value, 0)
        passes = False
        if group == upper.CONTEXT:
            syntax = upper.PCI
            moving = number == 27 and b"\x83\x01\xff" in value
            passes = number == 32 if self.own == "I" else number == 36 or (number == 27 and not moving)
        elif group == upper.APPLICATION:
            syntax = upper.FADU
        else:
            syntax = upper.BINARY if number == 4 else upper.TEXT
        return sessions.Unit("D" if passes and holds else "d", data=upper.data(self.contexts, value, syntax))

    def answer(self):
        """All that the end was told and has sent, and where it stands."""
        holds = "*" if sessions.sync(self.trace)[1] and sessions.token(self.trace) == self.own else ""
        ended = "open" if self.ending == OPEN else "ended"
        words = "".join(shown(word) + " " for word in self.told)
        held = self.held + len(self.tpdus.tsdu)
        return f"{words}: {self.sent.hex()} : {ended} {held} {self.wanted} {sessions.next_serial(self.trace)}{holds}"


def entries(offers):
    return [upper.Entry(offer.id, offer.syntax) for offer in offers]
