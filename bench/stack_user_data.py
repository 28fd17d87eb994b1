"""User data of presentation and ACSE (ISO 8823, ISO 8650; values by ISO 8825): what is read, and what is written.

All is told by these standards and this profile alone. A value is read as a tree of parts, and the tree is walked by the
types. Octets that are wrong or cut off have a front that could still be a value: the tree of this front is walked too,
so that the fault is the least place at which there is one.
"""

import importlib.machinery
import importlib.util
import os
from collections import namedtuple

HERE = os.path.dirname(os.path.realpath(__file__))


def script(name):
    """A script of this folder as a module."""
    loader = importlib.machinery.SourceFileLoader(name, os.path.join(HERE, name))
    module = importlib.util.module_from_spec(importlib.util.spec_from_loader(name, loader))
    loader.exec_module(module)
    return module


pdus = script("pdus")
spellings = script("spellings")

MOST, DEPTH = 1 << 20, 32
UNIVERSAL, APPLICATION, CONTEXT = 0, 1, 2
INTEGER, OCTETS, OID, EXTERNAL, SEQUENCE, SET = 2, 4, 6, 8, 16, 17

ACSE = (2, 2, 1, 0, 1)
BER = (2, 1, 1)
FTAM = (1, 0, 8571, 1, 1)
PCI, FADU, TEXT, BINARY = ((1, 0, 8571, 2, number) for number in (1, 2, 3, 4))
OURS = (ACSE, PCI, FADU, TEXT, BINARY)

# The number of the ACSE value in the user data of each SPDU.
VALUES = dict(CN=0, AC=1, RF=1, FN=2, DN=3, AB=4)

Offer = namedtuple("Offer", "id syntax ber")
Entry = namedtuple("Entry", "id syntax")
# What user data are: the contexts that they offer, the results that they have, and each value with its context.
Primitive = namedtuple("Primitive", "offers results values", defaults=((), (), ()))


class Fault(Exception):
    """A name, and a place from the first octet of the user data."""

    def __init__(self, name, at=0):
        super().__init__(name, at)
        self.name, self.at = name, at


# ---- values as trees of parts, also those of a front


class Part:
    """A value, or a front of one. Where its contents begin, where they end (`inside`) and where it ends are none as long as
    that isn't known, and so is the number of its tag."""

    def __init__(self, text, start, group, built, number, contents):
        self.text, self.start, self.group, self.built, self.number = text, start, group, built, number
        self.contents, self.inside, self.end, self.parts = contents, None, None, []

    def is_tagged(self, group, number):
        return (self.group, self.number) == (group, number)

    @property
    def place(self):
        return self.text.place(self.start)

    @property
    def octets(self):
        return self.text.octets[self.contents : self.inside]

    def value(self):
        """The same as a value of bench/pdus."""
        if self.built:
            return pdus.Value(self.number, parts=tuple(part.value() for part in self.parts), group=self.group)
        return pdus.Value(self.number, self.octets, group=self.group)


class Text:
    """Octets, each with its place in the user data, and the place after the last one."""

    def __init__(self, octets, places, end):
        self.octets, self.places, self.end = octets, places, end

    def place(self, at):
        return self.places[at] if at < len(self.places) else self.end


def header(octets, at):
    """Class, form, number, length (none of an indefinite one), and where the contents begin. Where octets are wanting, what
    isn't known is none."""
    group, built, number, after = octets[at] >> 6, octets[at] & 32 > 0, octets[at] & 31, at + 1
    if number == 31:
        number, more = 0, True
        while more:
            if after == len(octets):
                return group, built, None, None, None
            number, more, after = number << 7 | octets[after] & 127, octets[after] > 127, after + 1
    if after == len(octets):
        return group, built, number, None, None
    length, after = octets[after], after + 1
    if length == 128:
        return group, built, number, None, after
    if length > 128:
        digits = octets[after : after + length - 128]
        if len(digits) < length - 128:
            return group, built, number, None, None
        length, after = int.from_bytes(digits, "big"), after + len(digits)
    return group, built, number, length, after


def part_at(text, at):
    """The value that begins there, or what is there of it."""
    group, built, number, length, contents = header(text.octets, at)
    part = Part(text, at, group, built, number, contents)
    if contents is None:
        return part
    have = len(text.octets)
    upto = have if length is None else min(contents + length, have)
    if length is not None and (contents + length <= have or length == 0):
        part.inside = part.end = contents + length
    place = contents
    while built and place < upto:
        if length is None and text.octets[place] == 0:
            part.inside = place
            part.end = place + 2 if place + 2 <= have else None
            break
        inner = part_at(text, place)
        part.parts.append(inner)
        if inner.end is None:
            break
        place = inner.end
    return part


def front_of(octets):
    """How many octets a value has, or how many begin one where a fault follows them; and whether it is whole."""
    rule = spellings.Rule(spellings.TRUE, DEPTH, MOST)
    at = 0
    while at < len(octets):
        if rule.skip > 1:
            more = min(rule.skip - 1, len(octets) - at)
            rule.skip -= more
            at += more
            continue
        if not rule.take(octets[at]):
            return at, False
        at += 1
        if rule.state == "done":
            return at, True
    return at, False


# ---- the types


def wrong(place):
    raise Fault("Grammar", place)


class Walk:
    """Goes over the tree of user data, and notes the contexts and the names that are looked at when all is of its type."""

    def __init__(self):
        self.contexts = []  # place, identifier, and what the context is for
        self.name = None  # place and arcs
        self.offers, self.results, self.values = [], [], []

    # Parts of a holder.

    def exactly(self, holder, *due):
        """The parts are those that are due, in order, and no others."""
        for part, (tag, take) in zip(holder.parts, due):
            if not part.is_tagged(*tag):
                wrong(part.place)
            take(part)
        if len(holder.parts) > len(due):
            wrong(holder.parts[len(due)].place)
        if len(holder.parts) < len(due) and holder.inside is not None:
            wrong(holder.text.place(holder.inside))

    def fields(self, holder, *known):
        """The known fields stand in order, each once at most; all of them are required but those marked `maybe`, and other
        parts are skipped."""
        left = list(known)
        for part in holder.parts:
            if any(part.is_tagged(*tag) for tag, *_ in known):
                while left and not part.is_tagged(*left[0][0]):
                    if len(left[0]) == 2:
                        wrong(part.place)
                    left.pop(0)
                if not left:
                    wrong(part.place)
                left.pop(0)[1](part)
        if holder.inside is not None and any(len(field) == 2 for field in left):
            wrong(holder.text.place(holder.inside))

    def members(self, holder, *known):
        """The known members of a SET, all required, in any order."""
        left = dict(known)
        for part in holder.parts:
            tag = (part.group, part.number)
            if any(tag == name for name, _ in known):
                if tag not in left:
                    wrong(part.place)
                left.pop(tag)(part)
        if holder.inside is not None and left:
            wrong(holder.text.place(holder.inside))

    def built(self, take):
        """Of a part that is constructed."""

        def judge(part):
            if not part.built:
                wrong(part.place)
            take(part)

        return judge

    def each(self, tag, take):
        """Any number of parts of one tag."""

        def judge(part):
            for inner in part.parts:
                if not inner.is_tagged(*tag):
                    wrong(inner.place)
                take(inner)

        return self.built(judge)

    def explicit(self, tag, take):
        """Exactly one part of this tag."""
        return self.built(lambda part: self.exactly(part, (tag, take)))

    def number(self, found=None, among=None):
        return self.primitive(pdus.integer_of, found, lambda number: among is None or number in among)

    def identifier(self, found=None, only=None):
        return self.primitive(pdus.arcs_of, found, lambda arcs: only is None or arcs == only)

    def primitive(self, read, found, suits):
        """A primitive part whose octets are read as a value that suits; what is found is told."""

        def judge(part):
            if part.built:
                wrong(part.place)
            if part.inside is not None:
                value = read(part.value())
                if value is None or not suits(value):
                    wrong(part.place)
                if found:
                    found(part, value)

        return judge

    # Carried values.

    def text_in(self, part):
        """The octets of a part in [1], also from segments, and the part that is no segment, which ends them. Their end is
        that of the part."""
        octets, places = b"", []

        def join(piece):
            nonlocal octets
            if not piece.built:
                have = len(piece.text.octets)
                begin = have if piece.contents is None else piece.contents
                end = have if piece.inside is None else piece.inside
                octets += piece.text.octets[begin:end]
                places.extend(piece.text.place(at) for at in range(begin, end))
                return None
            for inner in piece.parts:
                other = join(inner) if inner.is_tagged(UNIVERSAL, OCTETS) else inner
                if other is not None:
                    return other
            return None

        other = join(part)
        return Text(octets, places, part.text.place(part.end or len(part.text.octets))), other

    def values_in(self, part, take, many):
        """The values that the octets in [1] hold: one, or one or more."""
        text, other = self.text_in(part)
        self.values_of(text, part.end is not None and other is None, take, many)
        if other is not None:
            wrong(other.place)

    def values_of(self, text, whole, take, many):
        """The values of octets, which are all there or a front of them."""
        at = 0
        while True:
            size, good = front_of(text.octets[at:])
            if size:
                take(part_at(Text(text.octets[: at + size], text.places, text.end), at))
            at += size
            if not good:
                if whole or at < len(text.octets):
                    wrong(text.place(at))
                return
            if at == len(text.octets):
                return
            if not many:
                wrong(text.place(at))

    def held(self, part, take, many):
        """The last part of a PDV-list or an EXTERNAL: [0] with one value, or [1] with octets."""
        if part.is_tagged(CONTEXT, 0):
            if not part.built:
                wrong(part.place)
            if not part.parts and part.inside is not None:
                wrong(part.text.place(part.inside))
            for number, inner in enumerate(part.parts):
                if number:
                    wrong(inner.place)
                take(inner)
        elif part.is_tagged(CONTEXT, 1):
            self.values_in(part, take, many)
        else:
            wrong(part.place)

    def holding(self, holder, purpose, take, many, named):
        """A PDV-list, in which a transfer syntax may be named, or an EXTERNAL: a context, and what it is the context of."""
        seen = []

        def context(part, number):
            self.contexts.append((part.place, number, purpose))
            seen.append(number)

        parts = list(holder.parts)
        if named and parts and parts[0].is_tagged(UNIVERSAL, OID):
            self.identifier()(parts.pop(0))
        if parts:
            if not parts[0].is_tagged(UNIVERSAL, INTEGER):
                wrong(parts[0].place)
            self.number(context)(parts.pop(0))
            if parts:
                self.held(parts.pop(0), lambda part: take(part, seen[0] if seen else None), many)
                if parts:
                    wrong(parts[0].place)
                return
        if holder.inside is not None:
            wrong(holder.text.place(holder.inside))

    def lists(self, purpose, take, many):
        """The user data itself: any number of PDV-lists where there may be many, else one."""

        def one(part):
            if not part.is_tagged(UNIVERSAL, SEQUENCE) or not part.built:
                wrong(part.place)
            self.holding(part, purpose, take, many, True)

        def judge(part):
            for number, inner in enumerate(part.parts):
                if number and not many:
                    wrong(inner.place)
                one(inner)
            if not part.parts and not many and part.inside is not None:
                wrong(part.text.place(part.inside))

        return self.built(judge)

    # ACSE.

    def keep(self, part, context):
        if part.end is not None:
            self.values.append((context, part.value()))

    def information(self, purpose):
        """One EXTERNAL with the PDU."""

        def external(part):
            self.holding(part, purpose, self.keep, False, False)

        return self.built(lambda part: self.exactly(part, ((UNIVERSAL, EXTERNAL), self.built(external))))

    def named(self, part, arcs):
        self.name = (part.place, arcs)

    def acse(self, kind):
        number = VALUES[kind]
        name = self.explicit((UNIVERSAL, OID), self.identifier(self.named))
        zero = self.explicit((UNIVERSAL, INTEGER), self.number(among=(0,)))
        result = self.explicit((UNIVERSAL, INTEGER), self.number(among=(0,) if kind == "AC" else (1,)))
        information = self.information("PDU" if number < 2 else "value")
        fields = {
            0: [((CONTEXT, 1), name)],
            1: [((CONTEXT, 1), name), ((CONTEXT, 2), result), ((CONTEXT, 3), self.explicit((CONTEXT, 1), zero))],
            2: [],
            3: [],
            4: [((CONTEXT, 0), self.number(among=(0,)))],
        }[number] + [((CONTEXT, 30), information)]

        def value(part, _context):
            if not part.is_tagged(APPLICATION, number) or not part.built:
                wrong(part.place)
            self.fields(part, *fields)

        return value

    # Presentation.

    def offer(self, part):
        if not part.built:
            wrong(part.place)
        found = {}
        syntaxes = []
        transfer = self.each((UNIVERSAL, OID), self.identifier(lambda _, arcs: syntaxes.append(arcs)))
        self.exactly(
            part,
            ((UNIVERSAL, INTEGER), self.number(lambda _, number: found.update(id=number))),
            ((UNIVERSAL, OID), self.identifier(lambda _, arcs: found.update(syntax=arcs))),
            ((UNIVERSAL, SEQUENCE), transfer),
        )
        if part.end is not None:
            self.offers.append(Offer(found["id"], found["syntax"], BER in syntaxes))

    def result(self, part):
        """[0] first, and after a 0 the transfer syntax; after a 2 this is skipped."""
        if not part.built:
            wrong(part.place)
        results, names = [], []
        for inner in part.parts:
            if inner.is_tagged(CONTEXT, 0):
                if results:
                    wrong(inner.place)
                self.number(lambda _, number: results.append(number), (0, 2))(inner)
                if inner.inside is None:
                    return
            elif inner.is_tagged(CONTEXT, 1):
                if not results or (names and results[0] == 0):
                    wrong(inner.place)
                if results[0] == 0:
                    self.identifier(only=BER)(inner)
                    names.append(inner)
        if part.inside is not None:
            if not results or (results[0] == 0 and not names):
                wrong(part.text.place(part.inside))
            self.results.append(results[0] == 0)

    def connection(self, list_tag, take, user_data):
        """The SET of a CP or a CPA: the mode, and the parameters, which have a list and user data."""
        mode = self.built(lambda part: self.members(part, ((CONTEXT, 0), self.number(among=(1,)))))
        parameters = self.built(
            lambda part: self.fields(
                part, ((CONTEXT, list_tag), self.each((UNIVERSAL, SEQUENCE), take)), ((APPLICATION, 1), user_data)
            )
        )
        return self.built(lambda part: self.members(part, ((CONTEXT, 0), mode), ((CONTEXT, 2), parameters)))

    def outer(self, kind):
        """The tag of the value that the user data of an SPDU are, and what it is judged by."""
        purpose = "ACSE" if kind in VALUES else "value"
        take = self.acse(kind) if kind in VALUES else self.keep
        lists = self.lists(purpose, take, kind == "DT")
        user_data = ((APPLICATION, 1), lists)
        results = ((CONTEXT, 5), self.each((UNIVERSAL, SEQUENCE), self.result))
        skipped = ((CONTEXT, 0), self.built(lambda part: None), "maybe")

        def holding(*fields):
            return self.built(lambda part: self.fields(part, *fields, user_data))

        return {
            "CN": ((UNIVERSAL, SET), self.connection(4, self.offer, lists)),
            "AC": ((UNIVERSAL, SET), self.connection(5, self.result, lists)),
            "RF": ((UNIVERSAL, SEQUENCE), holding(results)),
            "AB": ((CONTEXT, 0), holding()),
            "RS": ((UNIVERSAL, SEQUENCE), holding(skipped)),
            "RA": ((UNIVERSAL, SEQUENCE), holding(skipped)),
        }.get(kind, user_data)


# ---- reading


def first_of(syntax, contexts):
    """The identifier of a syntax: that of the first context with it that is the first one with its identifier."""
    for entry in contexts:
        if entry.syntax == syntax and by_id(entry.id, contexts) == syntax:
            return entry.id
    return None


def by_id(number, contexts):
    """The syntax of an identifier, of which the first counts."""
    return next((entry.syntax for entry in contexts if entry.id == number), None)


def results(offers):
    """What a called end answers each proposal: of two with one identifier the first counts, and the later one is refused."""
    return [
        offer.ber and offer.syntax in OURS and all(offer.id != other.id for other in offers[:place])
        for place, offer in enumerate(offers)
    ]


def accepted(offers):
    """What a called end accepts."""
    return chosen([Entry(offer.id, offer.syntax) for offer in offers], results(offers))


def chosen(entries, results):
    """What is accepted of what was proposed."""
    return [entry for entry, result in zip(entries, results) if result]


def read(kind, contexts, octets):
    """What the user data of an SPDU are, by the contexts that are accepted, in an AC and an RF by those proposed."""
    if not octets:
        if kind in ("RF", "AB"):
            return Primitive()
        wrong(0)
    size, whole = front_of(octets)
    text = Text(octets[:size], range(size), size)
    walk = Walk()
    tag, judge = walk.outer(kind)
    if size:
        part = part_at(text, 0)
        if not part.is_tagged(*tag):
            wrong(0)
        judge(part)
    if not whole or size < len(octets):
        wrong(size)
    if kind == "CN":
        contexts = accepted(walk.offers)
    elif kind in ("AC", "RF"):
        contexts = chosen(contexts, walk.results)
    judge_names(walk, contexts)
    return Primitive(tuple(walk.offers), tuple(walk.results), tuple(walk.values))


def judge_names(walk, contexts):
    """Contexts and the name of the application, in the order of their octets."""
    found = [(place, "context", number, purpose) for place, number, purpose in walk.contexts]
    if walk.name:
        found.append((walk.name[0], "name", walk.name[1], None))
    for _, what, told, purpose in sorted(found, key=lambda each: each[0]):
        if what == "name":
            if told != FTAM:
                raise Fault("Application")
            continue
        syntax = by_id(told, contexts)
        if syntax is None or (purpose == "ACSE" and syntax != ACSE) or (purpose == "PDU" and syntax != PCI):
            raise Fault("Context")


# ---- writing


def tagged(tag, *contents):
    inside = b"".join(contents)
    n = len(inside)
    if n < 128:
        return bytes(tag) + bytes([n]) + inside
    digits = n.to_bytes((n.bit_length() + 7) // 8, "big")
    return bytes(tag) + bytes([128 + len(digits)]) + digits + inside


def integer(number):
    return tagged([2], pdus.integer(number))


def oid(arcs, tag=6):
    return tagged([tag], pdus.identifier(arcs))


OWN = (Entry(1, ACSE), Entry(3, PCI), Entry(5, FADU), Entry(7, TEXT), Entry(9, BINARY))


def own_offers():
    return tuple(Offer(entry.id, entry.syntax, True) for entry in OWN)


def pdv(context, value):
    return tagged([0x61], tagged([0x30], integer(context), tagged([0xA0], value)))


def external_in(context, pdu):
    return tagged([0xBE], tagged([0x28], integer(context), tagged([0xA0], pdu)))


def external(contexts, pdu):
    return external_in(first_of(PCI, contexts), pdu)


def results_of(offers):
    entry = {True: bytes.fromhex("3007800100 81025101"), False: bytes.fromhex("3003800102")}
    return tagged([0xA5], *(entry[result] for result in results(offers)))


MODE = bytes.fromhex("A003800101")
NAME = tagged([0xA1], oid(FTAM))


def proposing(offers, acse, context, pdu):
    """The user data of a CN, in which ACSE's value and the PDU stand in these contexts. A proposal that doesn't offer the
    basic encoding rules offers no others."""
    entries = (
        tagged([0x30], integer(offer.id), oid(offer.syntax), tagged([0x30], oid(BER) if offer.ber else b""))
        for offer in offers
    )
    value = tagged([0x60], NAME, external_in(context, pdu))
    return tagged([0x31], MODE, tagged([0xA2], tagged([0xA4], *entries), pdv(acse, value)))


def associate(pdu):
    return proposing(own_offers(), 1, 3, pdu)


def answer(offers, contexts, result, pdu):
    """The user data of an AC (result 0) or an RF (1)."""
    value = tagged([0x61], NAME, tagged([0xA2], integer(result)), bytes.fromhex("A305A103020100"), external(contexts, pdu))
    inside = results_of(offers) + pdv(first_of(ACSE, contexts), value)
    return tagged([0x30], inside) if result else tagged([0x31], MODE, tagged([0xA2], inside))


def release(contexts, number, pdu):
    return pdv(first_of(ACSE, contexts), tagged([0x60 + number], external(contexts, pdu)))


def abort(contexts, pdu):
    value = tagged([0x64], bytes.fromhex("800100"), external(contexts, pdu))
    return tagged([0xA0], pdv(first_of(ACSE, contexts), value))


def data(contexts, value, syntax=PCI):
    """A PDU, or an element by its syntax, whose context is that of the PDUs where its own wasn't accepted."""
    context = first_of(syntax, contexts)
    return pdv(first_of(PCI, contexts) if context is None else context, value)
