"""The octets of messages, for bench/dialogues: messages of filestore_state.py as values of bench/pdus, and back.

A message has the fields of its PDU in the order of their tags, so that the table in bench/pdus tells their forms. Data
elements (ISO 8571-2) are written and read here. Names are texts, of which each character is an octet.
"""

import datetime
import importlib.machinery
import importlib.util
import os
import sys

from filestore_state import *  # all names of it are used as if they stood here

FOLDER = os.path.dirname(os.path.realpath(__file__))


def script(name):
    """A script of this folder as a module."""
    loader = importlib.machinery.SourceFileLoader(name, os.path.join(FOLDER, name))
    module = importlib.util.module_from_spec(importlib.util.spec_from_loader(name, loader))
    sys.modules[name] = module
    loader.exec_module(module)
    return module


pdus = script("pdus")
Value = pdus.Value

KINDS = {
    0: InitializeRequest, 1: InitializeResponse, 2: TerminateRequest, 3: TerminateResponse, 4: UserAbort,
    5: ProviderAbort, 6: SelectRequest, 7: SelectResponse, 8: DeselectRequest, 9: DeselectResponse, 10: CreateRequest,
    11: CreateResponse, 12: DeleteRequest, 13: DeleteResponse, 14: ReadAttribRequest, 15: ReadAttribResponse,
    16: ChangeAttribRequest, 17: ChangeAttribResponse, 18: OpenRequest, 19: OpenResponse, 20: CloseRequest,
    21: CloseResponse, 22: BeginGroupRequest, 23: BeginGroupResponse, 24: EndGroupRequest, 25: EndGroupResponse,
    26: RecoverRequest, 27: RecoverResponse, 28: LocateRequest, 29: LocateResponse, 30: EraseRequest,
    31: EraseResponse, 32: ReadRequest, 33: WriteRequest, 34: DataEnd, 35: TransferEndRequest, 36: TransferEndResponse,
    37: CancelRequest, 38: CancelResponse, 39: RestartRequest, 40: RestartResponse,
}
NUMBERS = {kind: number for number, kind in KINDS.items()}
HAVE_NO_OCTETS = (Check, Acknowledge, Restart, Break, Checkpoint)

WORDS = {
    "fadu": {"Begin": 0, "End": -1, "First": -2, "Last": -3, "Current": -4, "Next": -5, "Previous": -6},
    "context": {"HA": 0, "FA": 1, "UA": 2, "US": 3},
    "operation": {"Insert": 1, "Replace": 2, "Extend": 3},
}
DESCRIPTOR = pdus.row((0, pdus.Text(), pdus.OPTIONAL), (1, pdus.Bool(), True))
MOMENT = b"19700101000000Z"  # the first one, 0
KIND = (1, 0, 8571, 5)  # the document types, after which their number stands
OF_FIELDS = {id(pdus.D.fields): Diagnostic, id(pdus.K.fields): Contents, id(pdus.T.fields): Term,
             id(pdus.G.fields): Grant, id(pdus.S.fields): Stamp, id(pdus.A.fields): Attributes}


# From messages to values

def date_of(moment):
    """The text of a moment, in seconds since the beginning of 1970."""
    return f"{datetime.datetime(1970, 1, 1) + datetime.timedelta(seconds=moment):%Y%m%d%H%M%S}Z".encode()


def content_of(form, value, name):
    """What bench/pdus holds for a field of a message."""
    if value is None:
        return None
    if isinstance(form, pdus.Int):
        return WORDS.get(name, {}).get(value, value)
    if isinstance(form, pdus.Controls):
        return bytes(value)
    if isinstance(form, pdus.Date):
        return value if isinstance(value, bytes) else date_of(value)
    if isinstance(form, pdus.Oid):
        return value if isinstance(value, tuple) else KIND + (value,)
    if isinstance(form, pdus.Seq):
        return contents_of(form.fields, value)
    if isinstance(form, pdus.ListOf):
        return tuple(contents_of(form.fields, each) for each in value)
    return value.encode("latin-1") if isinstance(value, str) else value


def contents_of(fields, record):
    names = [each.name for each in dataclasses.fields(record)]
    return tuple(content_of(each.form, getattr(record, name), name) for each, name in zip(fields, names))


def element_value(element):
    if isinstance(element, Descriptor):
        return Value(0, parts=pdus.all_written(DESCRIPTOR, contents_of(DESCRIPTOR, element)), group=1)
    if isinstance(element, (Enter, Exit)):
        return Value(1 if isinstance(element, Enter) else 2, group=1)
    number = element.universal if isinstance(element, Text) else 4
    return Value(number, bytes(element.octets), group=0)


def value_of(message):
    if isinstance(message, Data):
        return element_value(message.element)
    number = 5 if isinstance(message, Abort) else NUMBERS[type(message)]
    fields = pdus.ROWS[number]
    return Value(number, parts=pdus.all_written(fields, contents_of(fields, message)))


# From values to messages

def field_of(form, content, name):
    """What a message has for what bench/pdus holds."""
    if content is None:
        return None
    if isinstance(form, pdus.Int):
        return next((word for word, number in WORDS.get(name, {}).items() if number == content), content)
    if isinstance(form, pdus.Controls):
        return tuple(content)
    if isinstance(form, pdus.Date):
        return 0 if content == MOMENT else content
    if isinstance(form, pdus.Oid):
        return content[4] if len(content) == 5 and content[:4] == KIND else content
    if isinstance(form, pdus.Seq):
        return record_of(OF_FIELDS[id(form.fields)], form.fields, content)
    if isinstance(form, pdus.ListOf):
        return tuple(record_of(OF_FIELDS[id(form.fields)], form.fields, each) for each in content)
    return content.decode("latin-1") if isinstance(content, bytes) else content


def record_of(kind, fields, contents):
    names = [each.name for each in dataclasses.fields(kind)]
    return kind(*(field_of(each.form, content, name) for each, content, name in zip(fields, contents, names)))


def element_of(value):
    if value.group == 1 and value.tag == 0:
        return record_of(Descriptor, DESCRIPTOR, pdus.inside_of(DESCRIPTOR, value.parts))
    if value.group == 1:
        return Enter() if value.tag == 1 else Exit()
    octets = tuple(pdus.octets_of(value))
    return Binary(octets) if value.tag == 4 else Text(value.tag, octets)


def message_of(value):
    """The message of a value that is one."""
    if value.group != 2:
        return Data(element_of(value))
    fields = pdus.ROWS[value.tag]
    return record_of(KINDS[value.tag], fields, pdus.inside_of(fields, value.parts))


# Octets: values as they are read, and other spellings of them

def value_in(octets, at=0):
    """The value at a place, whose lengths are definite and whose tag is below 128, and the place after it."""
    first, at = octets[at], at + 1
    tag, at = (octets[at], at + 1) if first & 31 == 31 else (first & 31, at)
    length, at = octets[at], at + 1
    if length > 127:
        length, at = int.from_bytes(octets[at:at + length - 128], "big"), at + length - 128
    end, parts = at + length, []
    if not first & 0x20:
        return Value(tag, octets[at:end], group=first >> 6), end
    while at < end:
        part, at = value_in(octets, at)
        parts.append(part)
    return Value(tag, parts=tuple(parts), group=first >> 6), end


def loosely(value, random):
    """A spelling of the value, mostly not the shortest: indefinite lengths, lengths in more octets, strings of data
    elements in segments (ISO 8825)."""
    if value.parts is None and value.group == 0 and random.random() < 0.3:
        cut = random.randint(0, len(value.octets))
        pieces = value.octets[:cut], value.octets[cut:]
        value = Value(value.tag, parts=tuple(Value(4, each, group=0) for each in pieces), group=0)
    head = dataclasses.replace(value, octets=b"", parts=None if value.parts is None else ()).spelled()[:-1]
    inside = value.octets if value.parts is None else b"".join(loosely(part, random) for part in value.parts)
    if value.parts is not None and random.random() < 0.3:
        return head + b"\x80" + inside + b"\0\0"
    least = 0 if len(inside) < 128 else (len(inside).bit_length() + 7) // 8
    count = random.choice((least, least, least + 1, max(least, 3)))
    length = bytes([0x80 | count]) + len(inside).to_bytes(count, "big") if count else bytes([len(inside)])
    return head + length + inside
