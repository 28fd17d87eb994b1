"""The filestore as a plain model, for bench/filestore: objects that change, and a function for each message.

It is written from the rules of ISO 8571-2 and 8571-3 and of the profile, apart from the definitions in
crates/vf_filestore, so that the two can be compared. Where these read the state of a party off its history, a party
here has an association, a selection, an open regime and a transfer, which are made and dropped. The numbers of
diagnostics and aborts, and the order of refusals, are the profile's.
"""

import copy

from filestore_state import *  # all names of it are used as if they stood here

# Access (ISO 8571-2, access control and concurrency control; defaults are profile)

def controls_or_default(given, requested, first, count):
    """Where none are given, an action that is asked for is shared."""
    return list(given) if given is not None else [requested >> first + each & 1 for each in range(count)]


def must_be_usable(requested, controls, first):
    """An action that is asked for may not be excluded for the holder itself."""
    for each, control in enumerate(controls):
        if requested >> first + each & 1 and control in (NOT_REQUIRED, NO_ACCESS):
            raise Refused(13)


def must_be_granted(file, identity, password, requested):
    """The terms of the initiator grant all that is asked for, without their passwords 14, with them 15."""
    if requested & ~file.permitted:
        raise Refused(13)
    mine = [term for term in file.terms if term.identity in (None, identity)]
    opened = [term for term in mine if term.password in (None, password)]
    for terms, number in ((mine, 14), (opened, 15)):
        granted = 0
        for term in terms:
            granted |= term.actions
        if file.terms and requested & ~granted:
            raise Refused(number)


def select_file(store, party, file, request):
    controls = controls_or_default(request.controls, request.requested, READ_ATTRIB, 3)
    must_be_usable(request.requested, controls, READ_ATTRIB)
    must_be_granted(file, party.association.identity, request.password, request.requested)
    store.must_fit(party.link, file.name, [NOT_REQUIRED] * 5 + controls)
    party.selection = Selection(file.name, request.requested, controls, request.password)


def put(store, file, units, stamp):
    """The file has these units, and a version more."""
    if file.version == MOST_VERSION:
        raise Refused(23)
    file.units, file.version, file.modified = units, file.version + 1, stamp


def perform(store, party, values, setting):
    """The operation of a write with these values."""
    file, transfer = store.file_of(party), party.transfer
    units, position = changed(file, transfer.operation, transfer.fadu, units_of(file.contents, values))
    octets = octets_of(element for unit in units for element in unit)
    if octets > MOST_FILE or sum(len(unit) + 1 for unit in units) > MOST_NODES or file.version == MOST_VERSION:
        raise Refused(23)
    if sum(each.octets() for each in store.files if each is not file) + octets > MOST_FILESTORE:
        raise Refused(24)
    put(store, file, units, party.stamp(setting))
    party.regime.position = position


# A function for each message: what it does, and its reply. The message comes in a stage that takes it; what refuses it
# is asked in the order of the profile.

def initialize(store, party, request, setting):
    identity = GUEST if request.identity is None else request.identity
    user = next((each for each in store.users if each.identity == identity), None)
    if store.users and (user is None or user.password not in (None, request.password)):
        raise Refused(36)
    units = request.units & (255 if setting.sync else 63)
    party.association = Association(identity, units, min(request.window, MOST_WINDOW))
    return [InitializeResponse(None, units, party.association.window)]


def select(store, party, request, setting):
    file = store.file(request.name)
    if file is None:
        raise Refused(11)
    select_file(store, party, file, request)
    return [SelectResponse(None)]


def create(store, party, request, setting):
    """Where the file exists it is refused, or else (override 1) selected as it is."""
    party.needs(LIMITED)
    file = store.file(request.name)
    if file and request.over == 0:
        raise Refused(12)
    if file is None:
        if not is_document_type(request.contents):
            raise Refused(17)
        if len(store.files) >= MOST_FILES:
            raise Refused(24)
    made = file or File(request.name, request.contents, [] if request.contents.entry == 2 else [[]], request.permitted,
                        request.terms, party.stamp(setting))
    select_file(store, party, made, request)
    if file is None:
        store.files.append(made)
    return [CreateResponse(None)]


def deselect(store, party, request, setting):
    party.selection = None
    return [DeselectResponse(None)]


def delete(store, party, request, setting):
    party.needs(LIMITED)
    party.asked_for(DELETE)
    store.must_be_alone(party.link, party.selection.file, DELETE)
    store.files.remove(store.file_of(party))
    party.selection = None
    return [DeleteResponse(None)]


def read_attrib(store, party, request, setting):
    """The attributes that are named, where they have a value."""
    party.needs(LIMITED)
    party.asked_for(READ_ATTRIB)
    if request.names > 511:
        raise Refused(31)
    file = store.file_of(party)
    terms = tuple(Grant(term.identity, term.actions) for term in file.terms)
    values = (file.name, file.permitted, file.contents, terms, file.created, file.modified, file.read, file.changed,
              file.octets())
    named = [value if request.names >> bit & 1 else None for bit, value in enumerate(values)]
    return [ReadAttribResponse(None, Attributes(*named))]


def change_attrib(store, party, request, setting):
    party.needs(ENHANCED)
    party.asked_for(CHANGE_ATTRIB)
    if request.others:
        raise Refused(31)
    file = store.file_of(party)
    if request.name not in (None, file.name):
        if store.file(request.name):
            raise Refused(12)
        store.must_be_alone(party.link, file.name, CHANGE_ATTRIB)
    if request.name is not None:
        file.name = party.selection.file = request.name
    if request.permitted is not None:
        file.permitted = request.permitted
    if request.terms is not None:
        file.terms = request.terms
    file.changed = party.stamp(setting)
    return [ChangeAttribResponse(None)]


def open_file(store, party, request, setting):
    if request.activity is not None:
        party.needs(RECOVERY)
    file = store.file_of(party)
    if request.mode & ~party.selection.requested:
        raise Refused(13)
    controls = controls_or_default(request.controls, request.mode, READ, 5)
    must_be_usable(request.mode, controls, READ)
    if request.contents not in (None, file.contents):
        raise Refused(17)
    if request.mode & ~file.actions():
        raise Refused(18)
    store.must_fit(party.link, file.name, controls + party.selection.controls)
    if request.activity is not None:
        must_be_free(store, party.association.identity, request.activity)
    store.opens += 1
    party.regime = OpenRegime(request.mode, controls, request.activity, store.opens)
    return [OpenResponse(None, file.contents)]


def must_be_free(store, identity, activity):
    """An identity uses an activity once, and so many recoverable open regimes can be kept."""
    if store.docket(identity, activity) or store.uses(identity, activity):
        raise Refused(28)
    if len(store.dockets) + sum(each.activity() is not None for each in store.parties.values()) >= MOST_DOCKETS:
        raise Refused(35)


def close(store, party, request, setting):
    party.regime = None
    return [CloseResponse(None)]


def locate(store, party, request, setting):
    party.needs(FILE_ACCESS)
    party.regime.position = located(store.file_of(party), party.regime.position, request.fadu)
    return [LocateResponse(None, party.regime.position)]


def erase(store, party, request, setting):
    party.needs(FILE_ACCESS)
    file = store.file_of(party)
    if not party.regime.mode >> ERASE & 1:
        raise Refused(13)
    units, position = changed(file, "Erase", request.fadu, [])
    put(store, file, units, party.stamp(setting))
    party.regime.position = position
    return [EraseResponse(None)]


def recover(store, party, request, setting):
    """The docket's regimes stand in this association; a read's file has to be as it was. A transfer goes on from the
    point, or from the last check that is acknowledged where this is less."""
    party.needs(RECOVERY)
    docket = store.docket(party.association.identity, request.activity)
    if docket is None:
        raise Refused(27)
    done, transfer = docket.regime.done, docket.transfer
    if request.number not in ((done + 1,) if transfer else (done, done + 1)):
        raise Refused(29)
    if isinstance(transfer, Reading):
        version = store.file(docket.selection.file).version
        if version != transfer.version:
            raise Refused(34, transfer.version, version)
        if not setting.token:
            raise Aborted(102)
    store.dockets.remove(docket)
    party.selection, party.regime, party.transfer = docket.selection, docket.regime, transfer
    if transfer is None:
        return [RecoverResponse(None, done + 1, 0, False, docket.regime.last)]
    transfer.first = min(request.point, transfer.acknowledged)
    transfer.rewind(transfer.first)
    return [RecoverResponse(None, done + 1, transfer.first, True, 0)]


def begin_group(store, party, request, setting):
    if not party.association.has(GROUPING):
        raise Aborted(102)
    party.group = (request.threshold, [])
    return []


# Transfers (ISO 8571-3). A read or a write that is refused has its diagnostic at its end.

def refusal_by(action):
    """What an action gives, and the diagnostic that refuses it."""
    try:
        return action(), None
    except Refused as refused:
        return None, refused.diagnostic


def read(store, party, request, setting):
    """Where checks are agreed, the responder needs the token. The elements are those of the file as it is now."""
    if party.association.has_checks() and not setting.token:
        raise Aborted(102)
    if party.regime.done >= MOST_TRANSFERS:
        raise Aborted(105)
    file = store.file_of(party)

    def asked():
        party.needs(CAN_READ)
        if not party.regime.mode >> READ & 1:
            raise Refused(13)
        return shown(file, party.regime.position, request.fadu, request.context)

    found, refused = refusal_by(asked)
    elements, party.regime.position = found or ([], party.regime.position)
    party.transfer = Reading(request.fadu, request.context, refused, file.version, elements)
    return []


def write(store, party, request, setting):
    if party.regime.done >= MOST_TRANSFERS:
        raise Aborted(105)

    def asked():
        party.needs(CAN_WRITE)
        if not party.regime.mode >> {"Insert": INSERT, "Replace": REPLACE, "Extend": EXTEND}[request.operation] & 1:
            raise Refused(13)
        changed(store.file_of(party), request.operation, request.fadu, [])

    _, refused = refusal_by(asked)
    party.transfer = Writing(request.fadu, request.operation, refused)
    return []


def data(store, party, message, setting):
    values = party.transfer.values + [message.element]
    if octets_of(values) > MOST_UNDER_WAY or len(values) > MOST_VALUES:
        raise Aborted(104)
    party.transfer.values = values
    return []


def check(store, party, message, setting):
    """A check of a write is acknowledged at once (profile)."""
    if not party.association.has_checks():
        raise Aborted(102)
    transfer = party.transfer
    transfer.checks.append(len(transfer.values))
    transfer.acknowledged = len(transfer.checks)
    return [Acknowledge(transfer.acknowledged)]


def acknowledge(store, party, message, setting):
    if not party.transfer.knows(message.point):
        raise Aborted(102)
    party.transfer.acknowledged = max(party.transfer.acknowledged, message.point)
    return []


def restart(store, party, request, setting):
    """The numbers of the session go back with the checks that are taken away."""
    transfer = party.transfer
    if not party.association.has_checks() or not transfer.knows(request.point):
        raise Aborted(102)
    setting.serial += request.point - len(transfer.checks)
    if setting.serial > MOST_SERIAL:
        raise Aborted(105)
    transfer.rewind(request.point)
    return [RestartResponse(request.point)]


def data_end(store, party, request, setting):
    party.transfer.end = request
    return []


def transfer_end(store, party, request, setting):
    """A read sets the stamp of the last read, a write performs its operation, unless the initiator gave it up."""
    transfer, refused = party.transfer, party.transfer.refused
    if refused is None and isinstance(transfer, Reading):
        store.file_of(party).read = party.stamp(setting)
    elif refused is None and transfer.end.diagnostic is not None:
        refused = Diagnostic(32, 0, 0)
    elif refused is None:
        _, refused = refusal_by(lambda: perform(store, party, transfer.values, setting))
    party.ends_transfer(refused.number if refused else 0)
    return [TransferEndResponse(refused)]


def cancel(store, party, request, setting):
    """Of a write the values before its last acknowledged check are performed, or nothing where they are refused."""
    if setting.serial > MOST_SERIAL:
        raise Aborted(105)
    transfer = party.transfer
    if transfer.refused is None and isinstance(transfer, Reading):
        store.file_of(party).read = party.stamp(setting)
    elif transfer.refused is None and transfer.acknowledged > 0:
        refusal_by(lambda: perform(store, party, transfer.values_before(transfer.acknowledged), setting))
    party.ends_transfer(32)
    return [CancelResponse()]


def due(party, setting):
    """What a read is due to send: elements, a check after each eighth that isn't the last, and the end of the data.
    While the window is full nothing is sent; a check without a number left in the session is an abort (profile)."""
    sent, transfer, serial = [], party.transfer, setting.serial
    if not isinstance(transfer, Reading) or transfer.end:
        return sent
    checks = party.association.has_checks()
    while not checks or len(transfer.checks) - transfer.acknowledged < party.association.window:
        place = len(transfer.values)
        if place == len(transfer.shown):
            transfer.end = DataEnd(transfer.refused)
            return sent + [transfer.end]
        transfer.values.append(transfer.shown[place])
        sent.append(Data(transfer.shown[place]))
        if checks and (place + 1) % BETWEEN_CHECKS == 0 and place + 1 < len(transfer.shown):
            if serial > MOST_SERIAL:
                return sent + [Abort(105, 0)]
            serial += 1
            transfer.checks.append(place + 1)
            sent.append(Checkpoint(len(transfer.checks)))
    return sent


TAKES = {
    InitializeRequest: initialize, SelectRequest: select, CreateRequest: create, DeselectRequest: deselect,
    DeleteRequest: delete, ReadAttribRequest: read_attrib, ChangeAttribRequest: change_attrib, OpenRequest: open_file,
    CloseRequest: close, BeginGroupRequest: begin_group, RecoverRequest: recover, LocateRequest: locate,
    EraseRequest: erase, ReadRequest: read, WriteRequest: write, Data: data, Check: check, Acknowledge: acknowledge,
    RestartRequest: restart, Restart: restart, DataEnd: data_end, TransferEndRequest: transfer_end,
    CancelRequest: cancel,
}

# Which messages each stage takes (profile); breaks come at each of them, aborts at each but idle
LEAVING = {UserAbort, ProviderAbort}
STAGES = {
    "idle": {InitializeRequest},
    "associated": {SelectRequest, CreateRequest, RecoverRequest, BeginGroupRequest, TerminateRequest},
    "selected": {DeselectRequest, DeleteRequest, ReadAttribRequest, ChangeAttribRequest, OpenRequest,
                 BeginGroupRequest},
    "open": {CloseRequest, LocateRequest, EraseRequest, ReadRequest, WriteRequest, BeginGroupRequest},
    "writing": {Data, Check, DataEnd, CancelRequest, RestartRequest, Restart},
    "written": {TransferEndRequest, CancelRequest, RestartRequest, Restart},
    "reading": {Acknowledge, CancelRequest, RestartRequest, Restart},
    "shown": {Acknowledge, CancelRequest, RestartRequest, Restart, TransferEndRequest},
    "grouping": {SelectRequest, DeselectRequest, CreateRequest, DeleteRequest, ReadAttribRequest, ChangeAttribRequest,
                 OpenRequest, CloseRequest, EndGroupRequest},
}


def innermost(party):
    """The stage of the innermost regime."""
    if party.transfer:
        names = ("reading", "shown") if isinstance(party.transfer, Reading) else ("writing", "written")
        return names[1 if party.transfer.end else 0]
    if party.regime:
        return "open"
    return "selected" if party.selection else "associated" if party.association else "idle"


def stage(party):
    return "grouping" if party.group is not None else innermost(party)


def refusal(request, diagnostic):
    """The response that has the diagnostic, and else what fields have by default."""
    if isinstance(request, InitializeRequest):
        return InitializeResponse(diagnostic, 0, 1)
    if isinstance(request, RecoverRequest):
        return RecoverResponse(diagnostic, None, 0, False, 0)
    rest = {ReadAttribRequest: (None,), OpenRequest: (None,), LocateRequest: (0,)}.get(type(request), ())
    return RESPONSES[type(request)](diagnostic, *rest)


RESPONSES = {
    SelectRequest: SelectResponse, DeselectRequest: DeselectResponse, CreateRequest: CreateResponse,
    DeleteRequest: DeleteResponse, ReadAttribRequest: ReadAttribResponse, ChangeAttribRequest: ChangeAttribResponse,
    OpenRequest: OpenResponse, CloseRequest: CloseResponse, LocateRequest: LocateResponse, EraseRequest: EraseResponse,
}


def group(store, party, setting):
    """The items of a group, each as if the good ones before it were performed; with fewer good ones than the threshold
    none is performed, and those answer 30. Gives the filestore after it, and what is sent."""
    threshold, items = party.group
    party.group = None
    trial, tried = copy.deepcopy(store), []
    for item in items:
        attempt = copy.deepcopy(trial)
        own = attempt.parties[party.link]
        try:
            if type(item) not in STAGES[innermost(own)]:
                raise Refused(37)
            reply, trial = TAKES[type(item)](attempt, own, item, setting), attempt
            tried.append((item, True, reply))
        except Refused as refused:
            tried.append((item, False, [refusal(item, refused.diagnostic)]))
    is_performed = sum(is_good for _, is_good, _ in tried) >= threshold
    sent = [BeginGroupResponse()]
    for item, is_good, reply in tried:
        sent += [refusal(item, Diagnostic(30, 0, 0))] if is_good and not is_performed else reply
    return trial if is_performed else store, sent + [EndGroupResponse()]


def supersede(store, party, request):
    """A recovery first aborts the association that stands with its identity and activity (profile)."""
    other = store.uses(party.association.identity, request.activity)
    if other is None:
        return []
    store.breaks(other.link)
    return [(other.link, Abort(106, 0))]


def replies(store, party, message, setting):
    """What a party that stays sends to a message that its stage takes."""
    if party.group is not None and isinstance(message, EndGroupRequest):
        after, sent = group(store, party, setting)
        store.__dict__ = after.__dict__
        return sent
    if party.group is not None:
        if len(party.group[1]) == MOST_ITEMS:
            raise Aborted(102)
        party.group[1].append(message)
        return []
    sent = TAKES[type(message)](store, party, message, setting)
    return sent + due(party, setting)


def take(store, link, message, setting):
    """A message comes on a link: what is sent, each with its link."""
    party, setting, before = store.parties.get(link), copy.copy(setting), []
    if party is None:
        return []
    now = stage(party)
    if isinstance(message, Break) or type(message) in LEAVING and now != "idle":
        store.breaks(link)
        return []
    leaves = True
    try:
        if type(message) not in STAGES[now]:
            raise Aborted(102)
        if isinstance(message, RecoverRequest):
            before = supersede(store, party, message)
        leaves = isinstance(message, TerminateRequest)
        sent = [TerminateResponse()] if leaves else replies(store, party, message, setting)
        leaves = leaves or any(isinstance(each, Abort) for each in sent)
    except Refused as refused:
        sent, leaves = [refusal(message, refused.diagnostic)], isinstance(message, InitializeRequest)
    except Aborted as aborted:
        sent, leaves = [Abort(aborted.number, 0)], True
    if leaves:
        store.breaks(link)
    return before + [(link, each) for each in sent]
