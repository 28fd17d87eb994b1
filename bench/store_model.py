"""What a store writes for messages, for bench/replays: how long its records are, where they stand, and what a stop within a
commit leaves (profile).

Of a record only its length is told, field by field. An area is where it begins, where it ends, how long its first record is
and how long the others are with what stands between them. It is written from the description of the store alone.
"""

import dataclasses

from filestore_state import *  # all names of it are used as if they stood here

USUAL_LIMIT, NO_LIMIT = 1073741824, (1 << 64) - 1
MOST_RECORD = 4294967295
FIRST_AREA = 33


class Stopped(Exception):
    """The disk stopped; whether the changes stand."""

    def __init__(self, stand):
        super().__init__(stand)
        self.stand = stand


class Full(Exception):
    """The record would end past the limit."""


# What a filestore keeps, as plain values

Entry = kind("Entry", "name:name contents:contents permitted:actions terms:terms created:stamp modified:stamp? read:stamp? "
             "changed:stamp? version:number units:units")
Kept = kind("Kept", "identity:name activity:number file:name requested:actions controls:controls mode:actions password:name? "
            "position:number number:number last:number direction:word fadu:fadu more:word refused:number point:number "
            "version:number")


@dataclasses.dataclass
class Tables:
    users: list
    files: list  # of Entry
    dockets: list  # pairs of Kept and the staged pieces


NOTHING = Tables([], [], [])


def entry_of(file):
    return Entry(file.name, file.contents, file.permitted, file.terms, file.created, file.modified, file.read, file.changed,
                 file.version, tuple(tuple(unit) for unit in file.units))


def pieces_of(transfer):
    """Those up to the acknowledged checks of a write."""
    if not isinstance(transfer, Writing):
        return ()
    places = [0] + transfer.checks[:transfer.acknowledged]
    return tuple(tuple(transfer.values[start:end]) for start, end in zip(places, places[1:]))


def kept_of(identity, selection, regime, transfer):
    direction, fadu, more, refused, point, version = "idle", "Begin", None, 0, 0, 0
    if transfer is not None:
        is_read = isinstance(transfer, Reading)
        direction = "read" if is_read else "write"
        fadu, point = transfer.fadu, transfer.acknowledged
        refused = transfer.refused.number if transfer.refused else 0
        more = transfer.context if is_read else transfer.operation
        version = transfer.version if is_read else 0
    kept = Kept(identity, regime.activity, selection.file, selection.requested, tuple(regime.controls + selection.controls),
                regime.mode, selection.password, regime.position, regime.done + 1, regime.last, direction, fadu, more,
                refused, point, version)
    return kept, pieces_of(transfer)


def tables_of(store):
    """Those of the dockets and of the recoverable regimes that stand are in the order of their opens."""
    opens = [(each.regime.number, each.identity, each) for each in store.dockets]
    opens += [(each.regime.number, each.association.identity, each) for each in store.parties.values()
              if each.activity() is not None]
    opens.sort(key=lambda each: each[0])
    return Tables(list(store.users), [entry_of(file) for file in store.files],
                  [kept_of(identity, each.selection, each.regime, each.transfer) for _, identity, each in opens])


# How long changes are in a record, each with the octet of its kind

def text(name):
    return 2 + len(name)


def maybe(name):
    return 1 if name is None else 1 + text(name)


def stamp(given):
    return 8 + text(given.identity)


def maybe_stamp(given):
    return 1 if given is None else 1 + stamp(given)


def attributes(entry):
    terms = sum(maybe(term.identity) + 1 + maybe(term.password) for term in entry.terms)
    times = stamp(entry.created) + sum(map(maybe_stamp, (entry.modified, entry.read, entry.changed)))
    return 1 + 7 + (4 + terms) + times + 4


def put_user(user):
    return 1 + text(user.identity) + maybe(user.password)


def put_file(entry):
    units = sum(4 + sum(4 + len(each.octets) for each in unit) for unit in entry.units)
    return 1 + text(entry.name) + attributes(entry) + 4 + units


def put_attributes(old, entry):
    return 1 + text(old) + text(entry.name) + attributes(entry)


def put_docket(kept):
    return 1 + text(kept.identity) + 4 + text(kept.file) + 1 + 8 + 1 + maybe(kept.password) + 4 + 4 + 2 + 2 + 1 + 8 + 1 + (
        2 + 4 + 1 + 4)


def element(each):
    if isinstance(each, Descriptor):
        return 1 + maybe(each.name) + 1
    return 1 if isinstance(each, (Enter, Exit)) else 1 + 4 + len(each.octets)


def stage(kept, piece):
    return 1 + text(kept.identity) + 4 + 4 + 4 + 4 + sum(map(element, piece))


def cut_stage(kept):
    return 1 + text(kept.identity) + 4 + 4


def drop_docket(kept):
    return 1 + text(kept.identity) + 4


def drop_file(entry):
    return 1 + text(entry.name)


# The changes of a message, as their lengths

def of_files(old, new):
    if len(new) < len(old):
        return [drop_file(next(each for each in old if each not in new))]
    made = []
    for before, now in zip(old, new):
        if before.units != now.units:
            made.append(put_file(now))
        elif before != now:
            made.append(put_attributes(before.name, now))
    return made + [put_file(each) for each in new[len(old):]]


def of_dockets(old, new):
    def key(kept):
        return kept.identity, kept.activity

    before, puts, stages = {key(kept): (kept, pieces) for kept, pieces in old}, [], []
    for kept, pieces in new:
        was, had = before.pop(key(kept), (None, ()))
        if kept != was:
            puts.append(put_docket(kept))
        common = 0
        while common < min(len(had), len(pieces)) and had[common] == pieces[common]:
            common += 1
        stages += [cut_stage(kept)] * (len(had) > common) + [stage(kept, piece) for piece in pieces[common:]]
    return puts + [drop_docket(kept) for kept, _ in before.values()] + stages


def changes(old, new):
    users = [put_user(user) for user in new.users[len(old.users):]]
    return users + of_files(old.files, new.files) + of_dockets(old.dockets, new.dockets)


def record(lengths):
    return 4 + sum(lengths)


def snapshot(tables):
    lengths = [put_user(user) for user in tables.users] + [put_file(entry) for entry in tables.files]
    for kept, pieces in tables.dockets:
        lengths += [put_docket(kept)] + [stage(kept, piece) for piece in pieces]
    return record(lengths)


# Where records stand

@dataclasses.dataclass
class Area:
    start: int
    end: int  # after its closed gate
    first: int = 0  # octets of the first record
    later: int = 0  # octets of those after it, of which each has five more

    def with_record(self, length):
        if self.end == self.start + 1:
            return Area(self.start, self.end + length + 5, length, 0)
        return Area(self.start, self.end + length + 5, self.first, self.later + length + 5)


class Journal:
    """Two areas, one of which is selected. A life counts its calls from its opening on, and may stop at one of them."""

    def __init__(self):
        self.areas, self.selected = [Area(FIRST_AREA, FIRST_AREA + 1), None], 0
        self.limit, self.calls, self.stop, self.form = NO_LIMIT, 0, None, None

    def opens(self, limit, stop, form):
        """A sync is made."""
        self.limit, self.calls, self.stop, self.form = limit, 0, stop, form
        self.call(lambda: False)

    def call(self, stand):
        """A call that is counted; where the life stops at it, `stand` tells whether what is written stands."""
        self.calls += 1
        if self.calls == self.stop:
            raise Stopped(stand())

    def may_end(self):
        """Whether a commit may fail."""
        return self.stop is not None or self.limit < USUAL_LIMIT

    def is_there(self):
        """What isn't synced holds what was written, or other octets than 0."""
        return self.form == "keep" or isinstance(self.form, int) and self.form != 0

    def place(self, length, before):
        """The area that a switch makes, or none, and where the record ends."""
        area = self.areas[self.selected]
        is_due = area.later > 4096 and area.later > area.first or area.end + length + 5 > self.limit
        new = FIRST_AREA if FIRST_AREA + before + 6 <= area.start else area.end
        if is_due and before <= MOST_RECORD and new + before + 6 <= self.limit:
            return Area(new, new + before + 6, before, 0), new + before + 6 + length + 5
        return None, area.end + length + 5

    def commit(self, length, before):
        """A record of this length, where one that makes all tables before it has the other."""
        area, end = self.place(length, before)
        if end > self.limit:
            raise Full()
        if area is not None:
            self.switch(area)
        none = lambda: False
        made = self.areas[self.selected].with_record(length)
        self.call(none)
        self.call(none)
        for _ in range(2):
            self.call(lambda: self.stands(made))
        self.areas[self.selected] = made

    def stands(self, made):
        if self.is_there():
            self.areas[self.selected] = made
        return self.is_there()

    def switch(self, area):
        other = 1 - self.selected
        for _ in range(3):
            self.call(lambda: False)
        self.areas[other] = area
        for _ in range(2):
            self.call(lambda: self.selects(other))
        self.selected = other

    def selects(self, other):
        """The tables are the same in both areas; which one is selected is told by an octet."""
        if self.form == "keep":
            self.selected = other
        elif isinstance(self.form, int):
            self.selected = 1 if self.form else 0
        return False
