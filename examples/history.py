"""What an exported history says (docs/REPLAY.md), and what happened in it, which `timeline` draws.

A history doesn't say which service a process is of, or what a start waits for. So `Run` follows it
by the rules of docs/scmd.8, and looks whether its answers agree. It is an example of a reader of
another make, and not proved.
"""
import struct
from collections import namedtuple
from types import SimpleNamespace

STATES = {1: "SERVICE_STOPPED", 2: "SERVICE_START_PENDING", 3: "SERVICE_STOP_PENDING",
          4: "SERVICE_RUNNING", 5: "SERVICE_CONTINUE_PENDING", 6: "SERVICE_PAUSE_PENDING",
          7: "SERVICE_PAUSED"}
STOPPED, START_PENDING, RUNNING, PAUSED = 1, 2, 4, 7
CALLS = {0: "RCloseServiceHandle", 1: "RControlService", 2: "RDeleteService",
         3: "RLockServiceDatabase", 4: "RQueryServiceObjectSecurity",
         5: "RSetServiceObjectSecurity", 6: "RQueryServiceStatus", 7: "RSetServiceStatus",
         8: "RUnlockServiceDatabase", 11: "RChangeServiceConfigW", 12: "RCreateServiceW",
         13: "REnumDependentServicesW", 14: "REnumServicesStatusW", 15: "ROpenSCManagerW",
         16: "ROpenServiceW", 17: "RQueryServiceConfigW", 18: "RQueryServiceLockStatusW",
         19: "RStartServiceW", 20: "RGetServiceDisplayNameW", 21: "RGetServiceKeyNameW",
         37: "RChangeServiceConfig2W", 39: "RQueryServiceConfig2W", 40: "RQueryServiceStatusEx",
         47: "Notify", 48: "GetNotify", 49: "CloseNotify"}
CODES = {2: "ERROR_FILE_NOT_FOUND", 3: "ERROR_PATH_NOT_FOUND", 5: "ERROR_ACCESS_DENIED",
         6: "ERROR_INVALID_HANDLE", 8: "ERROR_NOT_ENOUGH_MEMORY", 13: "ERROR_INVALID_DATA",
         31: "ERROR_GEN_FAILURE", 87: "ERROR_INVALID_PARAMETER",
         120: "ERROR_CALL_NOT_IMPLEMENTED", 122: "ERROR_INSUFFICIENT_BUFFER",
         123: "ERROR_INVALID_NAME", 124: "ERROR_INVALID_LEVEL", 234: "ERROR_MORE_DATA",
         1013: "ERROR_CANTWRITE", 1051: "ERROR_DEPENDENT_SERVICES_RUNNING",
         1052: "ERROR_INVALID_SERVICE_CONTROL", 1053: "ERROR_SERVICE_REQUEST_TIMEOUT",
         1054: "ERROR_SERVICE_NO_THREAD", 1055: "ERROR_SERVICE_DATABASE_LOCKED",
         1056: "ERROR_SERVICE_ALREADY_RUNNING", 1057: "ERROR_INVALID_SERVICE_ACCOUNT",
         1058: "ERROR_SERVICE_DISABLED", 1059: "ERROR_CIRCULAR_DEPENDENCY",
         1060: "ERROR_SERVICE_DOES_NOT_EXIST", 1061: "ERROR_SERVICE_CANNOT_ACCEPT_CTRL",
         1062: "ERROR_SERVICE_NOT_ACTIVE", 1065: "ERROR_DATABASE_DOES_NOT_EXIST",
         1066: "ERROR_SERVICE_SPECIFIC_ERROR", 1067: "ERROR_PROCESS_ABORTED",
         1068: "ERROR_SERVICE_DEPENDENCY_FAIL", 1071: "ERROR_INVALID_SERVICE_LOCK",
         1072: "ERROR_SERVICE_MARKED_FOR_DELETE", 1073: "ERROR_SERVICE_EXISTS",
         1075: "ERROR_SERVICE_DEPENDENCY_DELETED", 1077: "ERROR_SERVICE_NEVER_STARTED",
         1078: "ERROR_DUPLICATE_SERVICE_NAME", 1816: "ERROR_NOT_ENOUGH_QUOTA"}
CONTROLS = {1: "STOP", 2: "PAUSE", 3: "CONTINUE", 4: "INTERROGATE", 6: "PARAMCHANGE",
            7: "NETBINDADD", 8: "NETBINDREMOVE", 9: "NETBINDENABLE", 10: "NETBINDDISABLE"}
AUTOMATIC, DISABLED = 2, 4  # starts
SHARED = 0x20  # a type
RESTART, REBOOT, COMMAND = 1, 2, 3  # actions after failures
UNCHANGED = INFINITE = 0xFFFFFFFF
CREATE, OPEN_MANAGER, OPEN_SERVICE = 12, 15, 16  # calls
LAST_MOMENT, LONG = 2**64 - 1, 120_000  # milliseconds: of a start at most, and of a delayed start


def named(names, number):
    return f"{number} {names[number]}" if number in names else str(number)


class Wrong(Exception):
    """A line isn't one of a history there."""


# What the lines say.


class Bytes:
    """Items one after another: those of a body, each at a multiple of 4 (docs/WIRE.md), or those of
    a record, each at once (`journal --help`)."""

    def __init__(self, data, unit):
        self.data, self.unit, self.at = data, unit, 0

    def take(self, count):
        self.at += count
        if self.at > len(self.data):
            raise ValueError("its bytes end within an item")
        return self.data[self.at - count : self.at]

    def number(self):
        self.take(-self.at % self.unit)
        return struct.unpack("<I", self.take(4))[0]

    def numbers(self, count):
        return [self.number() for _ in range(count)]

    def flag(self):
        return self.take(1) != b"\0"

    def handle(self):
        self.number()
        return struct.unpack("<Q8x", self.take(16))[0]

    def units(self, count):
        return self.take(2 * count).decode("utf-16-le", "replace")

    def counted(self):
        """The text of a record."""
        return self.units(self.number())

    def text(self):
        """The text of a body, which has a zero at its end."""
        return self.units(self.numbers(3)[2])[:-1]

    def bytes(self):
        return self.take(self.number())

    def some(self, item):
        """An item behind a pointer, or None."""
        return item() if self.number() else None


class Config(SimpleNamespace):
    """The configuration of a service."""

    def but(self, **values):
        return Config(**{**vars(self), **values})


def needs_in(data):
    """The needs in the bytes of a call: whether each is a group, and its name."""
    names = data.decode("utf-16-le", "replace").split("\0")
    return [(it.startswith("+"), it.lstrip("+")) for it in names[: names.index("")]]


def recorded(data):
    """The configuration in the bytes of a record."""
    it = Bytes(data, 1)
    config = Config(name=it.counted(), display=it.counted())
    config.kind, config.start, config.error = it.numbers(3)
    config.path, config.group, config.tag = it.counted(), it.counted(), it.number()
    config.needs = [(it.flag(), it.counted()) for _ in range(it.number())]
    config.description, config.reset = it.counted(), it.number()
    config.actions = [it.numbers(2) for _ in range(it.number())]
    config.command, config.on_exit, config.delayed = it.counted(), it.flag(), it.flag()
    config.triggers = [(it.number(), it.take(16)) for _ in range(it.number())]
    return config


def created(it):
    """The configuration in the body of a creation, from the name on."""
    config = Config(name=it.text(), display=it.some(it.text))
    config.display = config.display or config.name
    _, config.kind, config.start, config.error = it.numbers(4)
    config.path, config.group, _ = it.text(), it.some(it.text) or "", it.some(it.number)
    config.needs = needs_in(it.some(it.bytes) or bytes(2))
    return config.but(reset=0, actions=[], command="", on_exit=False, delayed=False, triggers=[])


def changed(config, it):
    """The configuration that the body of a change leads to, from the type on."""
    numbers = zip((config.kind, config.start, config.error), it.numbers(3))
    kind, start, error = (old if new == UNCHANGED else new for old, new in numbers)
    new = {"path": it.some(it.text), "group": it.some(it.text)}
    it.some(it.number)
    needs = it.some(it.bytes)
    it.number(), it.some(it.text), it.some(it.bytes), it.number()
    display = it.some(it.text)
    new["needs"] = None if needs is None else needs_in(needs)
    new["display"] = config.name if display == "" else display
    kept = {key: value for key, value in new.items() if value is not None}
    return config.but(kind=kind, start=start, error=error, **kept)


def leveled(config, it):
    """The configuration that the body of a change of one level leads to, from the level on."""
    level, _, is_there = it.numbers(3)
    if not is_there:
        return config
    if level == 2:
        return after_failures(config, it)
    if level == 4:
        return config.but(on_exit=it.number() != 0)
    if level == 8:
        _, is_list, _ = it.numbers(3)
        rows = [it.numbers(5) for _ in range(it.number())] if is_list else []
        return config.but(triggers=[(row[1], it.take(16)) for row in rows])
    return config


def after_failures(config, it):
    """The configuration with what the body of a change has to be done after failures."""
    reset, message, has_command, _, is_list = it.numbers(5)
    if message:
        it.text()
    if has_command:
        config = config.but(command=it.text())
    if is_list:
        actions = [it.numbers(2) for _ in range(it.number())]
        config = config.but(actions=actions, reset=reset if actions else 0)
    return config


Entry = namedtuple("Entry", "line moment verb words answer")
Opening = namedtuple("Opening", "limits moment groups configs")


def opening_of(lines):
    """The opening, and how many lines say it."""
    if [it.split(" ")[0] for it in lines[:2]] != ["limits", "moment"]:
        raise Wrong("line 1: a history begins with its `limits` and its `moment`")
    opening, at = Opening([int(it) for it in lines[0].split()[1:]], int(lines[1][7:]), [], []), 2
    for line in lines[2:]:
        word, _, data = line.partition(" ")
        if word == "group":
            opening.groups.append(bytes.fromhex(data).decode("utf-16-le", "replace"))
        elif word == "config":
            opening.configs.append(recorded(bytes.fromhex(data)))
        else:
            break
        at += 1
    return opening, at


def entries_of(lines, at):
    """The entries after the lines of the opening, up to the summary of the run."""
    while at < len(lines) and not lines[at].startswith("steps "):
        if at + 1 == len(lines) or not lines[at + 1].startswith("= "):
            raise Wrong(f"line {at + 2}: the answer of line {at + 1} has to stand here")
        moment, verb, *words = lines[at].split(" ")
        yield Entry(at + 1, int(moment), verb, words, lines[at + 1][2:])
        at += 2


# What happened.


def folded(name):
    """A name as it is compared: A to Z are read as a to z."""
    return "".join(chr(ord(it) + 32) if "A" <= it <= "Z" else it for it in name)


Span = namedtuple("Span", "begin end state why")
Mark = namedtuple("Mark", "moment kind label why")
Refusal = namedtuple("Refusal", "moment caller call of code")
Due = namedtuple("Due", "moment kind of by")


class Service:
    """A service. What happened to it are spans of its states, marks, starts of it, and when it
    began to start, with the services that it needed and that ran."""

    def __init__(self, number, config, moment):
        self.number, self.config, self.gone = number, config, None
        self.state, self.since, self.why = STOPPED, moment, named(CODES, 1077)
        self.process, self.marked, self.handles = 0, False, 0
        self.failures, self.failed = 0, 0
        self.spans, self.marks, self.starts, self.entered = [], [], [], []

    def __str__(self):
        return self.config.name

    def become(self, moment, state, why):
        if state != self.state:
            self.end(moment)
            self.state, self.since = state, moment
        self.why = why

    def end(self, moment):
        """Its state ends."""
        self.spans.append(Span(self.since, moment, self.state, self.why))

    def needs(self, other):
        """Whether it needs another by its name or by its group."""
        return any(folded(name) == folded(other.config.group if is_group else other.config.name)
                   for is_group, name in self.config.needs)


class Start:
    """A start of a service and of all that it needs, from its request until it is decided: what it
    waited for, and from when to when."""

    def __init__(self, moment, target, entries, by, caller):
        self.begun, self.target, self.by, self.caller = moment, target, by, caller
        self.entries, self.tried, self.code, self.end = entries, [], None, None
        self.waits, self.awaited = [], None

    def wait(self, moment, what):
        if self.awaited and self.awaited[0] != what:
            self.waits.append((*self.awaited, moment))
            self.awaited = None
        if what and not self.awaited:
            self.awaited = what, moment

    def decide(self, moment, code):
        if self.code is None:
            self.code, self.end = code, moment
            self.wait(moment, None)


class Caller:
    """A caller, the opnums of its calls with their moments, and its refused calls."""

    def __init__(self, number, principal, moment):
        self.number, self.principal, self.joined, self.gone = number, principal, moment, None
        self.calls, self.refusals = [], []

    def __str__(self):
        principal = "an administrator" if self.principal == "admin" else "a user"
        return f"caller {self.number}, {principal}"


class Run:
    """What stands after some entries, and what happened in them."""

    def __init__(self, opening):
        self.limits, self.begun, self.moment = opening.limits, opening.moment, opening.moment
        self.entries, self.starts, self.callers = 0, [], []
        self.refusals, self.locks, self.commands = [], [], []
        configs = enumerate(opening.configs, 1)
        self.services = {number: Service(number, it, self.moment) for number, it in configs}
        self.lanes = list(self.services.values())  # with those that have gone
        self.here, self.handles, self.plans, self.lock = {}, {}, {}, None
        self.processes, self.wanted, self.launches = {}, [], 0
        self.dues, self.asked = [], None
        for service in self.automatic(opening.groups):
            delay = LONG if service.config.delayed else 0
            self.is_due(delay, RESTART, service, "an automatic start")

    def automatic(self, groups):
        """The services that start by themselves, in order."""
        places = {folded(it): place for place, it in reversed(list(enumerate(groups)))}

        def order(service):
            group, tag = folded(service.config.group), service.config.tag
            place = places.get(group, len(groups)) if group else len(groups) + 1
            return place, tag or 2**32, service.number

        return sorted((it for it in self.lanes if it.config.start == AUTOMATIC), key=order)

    def step(self, entry):
        if entry.verb != "nomem":
            self.moment = max(self.moment, entry.moment)
        self.entries += 1
        self.asked = None
        getattr(self, f"on_{entry.verb}")(entry.answer, *entry.words)
        self.settle()
        self.purge()
        self.check_start(entry.answer)

    def close(self):
        """Nothing more comes: what lasts, lasts until here."""
        for it in self.services.values():
            it.end(self.moment)
        for it in self.starts:
            it.wait(self.moment, None)
        for it in self.here.values():
            it.gone = self.moment
        for it in self.processes.values():
            it.end = self.moment
        if self.lock is not None:
            self.locks[-1][1] = self.moment

    @staticmethod
    def agree(answer, follows):
        if answer != follows:
            raise Wrong(f"the answer is `{answer}`, and by what stands before it is `{follows}`")

    # Callers.

    def on_join(self, answer, principal):
        caller = Caller(len(self.callers) + 1, principal, self.moment)
        self.agree(answer, f"caller {caller.number}")
        self.callers.append(caller)
        self.here[caller.number] = caller

    def on_gone(self, answer, number):
        caller = self.here.pop(int(number))
        caller.gone = self.moment
        for handle in [it for it, (owner, _) in self.handles.items() if owner is caller]:
            self.drop(handle)
        for plan in [it for it, start in self.plans.items() if start.caller is caller]:
            self.plans.pop(plan).wait(self.moment, None)

    def on_nomem(self, answer, number):
        self.refuse(self.here[int(number)], "a call", "", 8)

    def refuse(self, caller, call, of, code):
        refusal = Refusal(self.moment, caller, call, of, code)
        caller.refusals.append(refusal)
        self.refusals.append(refusal)
        if isinstance(of, Service):
            why = f"{call} is refused with {named(CODES, code)}: {caller}"
            of.marks.append(Mark(self.moment, "refused", str(code), why))

    # Calls.

    def on_call(self, answer, number, opnum, body):
        caller, opnum, it = self.here[int(number)], int(opnum), Bytes(bytes.fromhex(body), 4)
        of = "" if opnum == OPEN_MANAGER else self.handles.get(it.handle(), (None, ""))[1]
        caller.calls.append((self.moment, opnum))
        word, _, data = answer.partition(" ")
        if word == "plan":
            return self.begin(of, f"RStartServiceW of {caller}", caller, int(data))
        reply = Bytes(bytes.fromhex(data), 4)
        code = struct.unpack("<I", reply.data[-4:])[0]
        if code:
            if opnum in (CREATE, OPEN_SERVICE):
                name = it.text()
                of = self.find(name) or name
            return self.refuse(caller, CALLS[opnum], of, code)
        effect = getattr(self, f"call_{opnum}", None)
        if effect:
            effect(caller, of, it, reply)

    on_failcall = on_call

    def call_0(self, caller, of, it, reply):
        it.at = 0
        self.drop(it.handle())

    call_8 = call_49 = call_0

    def call_1(self, caller, service, it, reply):
        code = it.number()
        self.processes[service.process].sent.append((service, code))
        self.mark_control(service, code, caller)

    def mark_control(self, service, code, by):
        label = CONTROLS.get(code, str(code))
        service.marks.append(Mark(self.moment, "control", label, f"{label}, sent by {by}"))

    def call_2(self, caller, service, it, reply):
        service.marked = True
        service.marks.append(Mark(self.moment, "deleted", "", f"marked for deletion by {caller}"))

    def call_3(self, caller, of, it, reply):
        self.lock = self.open(caller, "the lock", reply)
        self.locks.append([self.moment, None, caller])

    def call_6(self, caller, service, it, reply):
        state = reply.numbers(2)[1]
        if state != service.state:
            raise Wrong(f"{service} is answered to be {STATES.get(state, state)}, and by what "
                        f"stands before it is {STATES[service.state]}")

    def call_7(self, caller, service, it, reply):
        self.report(service, it.numbers(7))

    def call_11(self, caller, service, it, reply):
        service.config = changed(service.config, it)

    def call_12(self, caller, of, it, reply):
        service = Service(len(self.lanes) + 1, created(it), self.moment)
        service.why += f", created by {caller}"
        self.services[service.number] = service
        self.lanes.append(service)
        reply.some(reply.number)
        self.open(caller, service, reply)

    def call_15(self, caller, of, it, reply):
        self.open(caller, "", reply)

    def call_16(self, caller, of, it, reply):
        self.open(caller, self.find(it.text()), reply)

    def call_19(self, caller, service, it, reply):
        """A start that is decided at once: its service has entered a process that runs."""
        self.begin(service, f"RStartServiceW of {caller}", caller)

    def call_37(self, caller, service, it, reply):
        service.config = leveled(service.config, it)

    def call_47(self, caller, of, it, reply):
        self.open(caller, "", reply)

    def open(self, caller, of, reply):
        handle = reply.handle()
        self.handles[handle] = caller, of
        if isinstance(of, Service):
            of.handles += 1
        return handle

    def drop(self, handle):
        _, of = self.handles.pop(handle, (None, None))
        if isinstance(of, Service):
            of.handles -= 1
        if handle == self.lock:
            self.lock, self.locks[-1][1] = None, self.moment

    # Starts.

    def find(self, name):
        """The service of a name, or None."""
        name = folded(name)
        return next((it for it in self.services.values() if folded(it.config.name) == name), None)

    def members(self, group):
        group = folded(group)
        return [it for it in self.services.values() if folded(it.config.group) == group]

    def order(self, target):
        """What a start goes through: each service after those that it needs, and none that runs."""
        done = []

        def visit(service):
            if service and service.state != RUNNING and service not in done:
                for is_group, name in service.config.needs:
                    for it in self.members(name) if is_group else [self.find(name)]:
                        visit(it)
                done.append(service)

        visit(target)
        return done

    def begin(self, target, by, caller=None, plan=None):
        start = Start(self.moment, target, self.order(target), by, caller)
        self.starts.append(start)
        target.starts.append(start)
        self.plans[plan or -len(self.starts)] = start
        self.is_due(LONG, "deadline", start, "")
        self.asked = start if caller else None

    def check_start(self, answer):
        """A start that a call has just begun waits if it is answered so, and is else decided."""
        start = self.asked
        if start and (start.code is None) != answer.startswith("plan "):
            raise Wrong(f"the answer is `{answer}`, and the start "
                        + ("has to wait" if start.code is None else "is decided at once"))
        if start and start.code is not None:
            self.agree(answer, f"reply {struct.pack('<I', start.code).hex()}")
            self.plans.popitem()

    def on_end(self, answer, caller, plan):
        start = self.plans.pop(int(plan))
        self.agree(answer, f"reply {struct.pack('<I', start.code).hex()}")

    def undecided(self):
        """The starts that go on, in the order in which they began."""
        return [it for it in self.plans.values() if it.code is None]

    def settle(self):
        """Each start goes on as far as it can. Those of a service that enters a process that runs
        are decided."""
        hosted, starts = set(), self.undecided()
        for start in starts:
            if start.target in hosted:
                start.decide(self.moment, 0)
            self.go_on(start, hosted)
        for start in starts:
            if start.target in hosted:
                start.decide(self.moment, 0)
            if start.code is None:
                start.wait(self.moment, self.awaited(start))
        for plan, start in [*self.plans.items()]:
            if start.code is not None and not start.caller:
                del self.plans[plan]

    @staticmethod
    def awaited(start):
        front = start.entries[0]
        if front.state == STOPPED:
            return "the lock"
        return "its launch" if front is start.target else str(front)

    def go_on(self, start, hosted):
        while start.code is None and start.entries:
            service = start.entries[0]
            code = 0 if service.state == RUNNING else self.cause(start, service)
            if code is None:
                return
            if service.state != RUNNING and not code:
                return self.enter(start, service, hosted)
            start.entries.pop(0)
            if service is start.target:
                start.decide(self.moment, code)

    def cause(self, start, service):
        """What is in the way of a service that doesn't run, or 0. None where the start waits."""
        if service.gone is None and service.state not in (STOPPED, PAUSED):
            return None
        if service.gone is not None or service.marked:
            return 1072
        if service.config.start == DISABLED:
            return 1058
        if not self.is_ready(service) or service.state == PAUSED or service in start.tried:
            return 1068
        if len(self.processes) >= self.limits[4] and not self.host(service):
            return 1054
        return 0 if self.lock is None else None

    def is_ready(self, service):
        """Whether each service that it needs runs, and a service of each group."""
        for is_group, name in service.config.needs:
            of = self.members(name) if is_group else [self.find(name)]
            if not any(it and it.state == RUNNING and (is_group or not it.marked) for it in of):
                return False
        return True

    def host(self, service):
        """The process that a service has in common with others of its path, or None."""
        what = SHARED, service.config.path
        if service.config.kind == SHARED:
            for it in self.services.values():
                process = self.processes.get(it.process)
                if (it.config.kind, it.config.path) == what and process and process.shared:
                    return process
        return None

    def enter(self, start, service, hosted):
        """A service begins to start."""
        process = self.host(service) or self.new_process(service)
        ready = [it for it in self.services.values() if it.state == RUNNING and service.needs(it)]
        service.process = process.number
        service.entered.append((self.moment, ready))
        service.become(self.moment, START_PENDING, f"in process {process.number}, by {start.by}")
        start.tried.append(service)
        if process.phase == "launched":
            hosted.add(service)

    # Processes.

    def new_process(self, service):
        self.launches += 1
        shared = service is not None and service.config.kind == SHARED
        process = SimpleNamespace(number=self.launches, service=service, shared=shared, pid=0,
                                  phase="wanted", begun=self.moment, end=None, command="", sent=[])
        self.processes[process.number] = process
        self.wanted.append(process)
        return process

    def of(self, process):
        """The services whose process it is."""
        return [it for it in self.services.values() if it.process == process.number]

    def on_take(self, answer):
        process = self.wanted.pop(0)
        self.agree(answer, f"launch {process.number}")
        process.phase = "taken"

    def on_launched(self, answer, number, pid):
        process = self.processes[int(number)]
        process.phase, process.pid = "launched", int(pid)
        for service in self.of(process):
            why = f"process {number} is launched with process id {pid}"
            service.marks.append(Mark(self.moment, "launched", "", why))
            self.decide(service, 0)

    def on_unlaunched(self, answer, number, code):
        process, code = self.processes.pop(int(number)), int(code)
        process.end = self.moment
        for service in self.of(process):
            self.decide(service, code)
            self.fall(service, code, f"process {number} can't be launched: {named(CODES, code)}")

    def decide(self, target, code):
        for start in self.undecided():
            if start.target is target:
                start.decide(self.moment, code)

    def fall(self, service, code, why):
        service.process = 0
        service.marks.append(Mark(self.moment, "ended", str(code), why))
        service.become(self.moment, STOPPED, why)

    def on_ended(self, answer, number):
        process = self.processes.pop(int(number))
        process.end, services = self.moment, self.of(process)
        self.agree(answer, "done" if services else "stale")
        for service in services:
            self.fall(service, 1067, f"process {number} ended: {named(CODES, 1067)}")
        for service in services:
            self.fail(service)
        if not services and process.service:
            why = f"process {number} ended, after its service"
            process.service.marks.append(Mark(self.moment, "stale", "", why))

    def on_report(self, answer, number, *words):
        process, status = self.processes[int(number)], [int(it) for it in words[-7:]]
        service = self.services.get(int(words[0])) if len(words) == 8 else process.service
        is_current = service is not None and service.process == process.number
        if is_current and answer == "done":
            return self.report(service, status)
        self.agree(answer, "refused 13" if is_current else "stale")
        if service:
            why = f"process {number} reports {STATES.get(status[1], status[1])}: {answer}"
            service.marks.append(Mark(self.moment, "unheard", "", why))

    def report(self, service, status):
        state, win32 = status[1], status[3]
        why = f"reported by process {service.process}"
        if state == STOPPED:
            why += f", with {named(CODES, win32)}" if win32 else ""
            service.process = 0
        service.become(self.moment, state, why)
        if state == STOPPED and win32 and service.config.on_exit:
            self.fail(service)

    def on_control(self, answer, number):
        """A process takes what was sent to it: by a call, or else by a trigger."""
        process, (*of, code) = self.processes[int(number)], map(int, answer.split()[1:])
        service = self.services.get(of[0]) if of else process.service
        if (service, code) in process.sent:
            process.sent.remove((service, code))
        elif code and service:
            self.mark_control(service, code, "a trigger")

    # What becomes due.

    def fail(self, service):
        """A failure is counted, and what is to be done after it becomes due."""
        config, since = service.config, self.moment - service.failed
        is_first = config.reset != INFINITE and since >= 1000 * config.reset
        service.failures = 1 if is_first else service.failures + 1
        service.failed = self.moment
        if config.actions:
            what, delay = config.actions[min(service.failures, len(config.actions)) - 1]
            if what:
                self.is_due(delay, what, service, f"a restart after failure {service.failures}")

    def is_due(self, delay, kind, of, by):
        """What becomes due of a service takes the place of what was."""
        self.dues = [it for it in self.dues if it.of is not of]
        self.dues.append(Due(min(self.moment + delay, LAST_MOMENT), kind, of, by))

    def on_tick(self, answer):
        while self.dues:
            due = min(self.dues, key=lambda it: it.moment)
            if due.moment > self.moment:
                return
            self.dues.remove(due)
            if due.kind == "deadline":
                due.of.decide(self.moment, 1053)
            elif due.kind == RESTART:
                self.start_unasked(due.of, due.by)
            elif due.kind == COMMAND:
                self.run_command(due.of)

    def start_unasked(self, service, by):
        can_start = service.state == STOPPED and service.config.start != DISABLED
        is_target = any(it.target is service for it in self.undecided())
        if service.gone is None and not service.marked and can_start and not is_target:
            self.begin(service, by)

    def run_command(self, service):
        words = service.config.command
        if service.gone is None and words and len(self.processes) < self.limits[4]:
            process = self.new_process(None)
            process.command = f"the command of {service}, {words}"
            self.commands.append(process)

    def on_raise(self, answer, number, subtype):
        caller = self.here[int(number)]
        code = struct.unpack("<I", bytes.fromhex(answer[6:]))[0]
        if code:
            return self.refuse(caller, "raising a trigger", subtype, code)
        for service in list(self.services.values()):
            actions = [action for action, of in service.config.triggers if of.hex() == subtype]
            if actions and actions[0] == 1:
                self.start_unasked(service, f"a trigger, raised by {caller}")

    def purge(self):
        for service in [it for it in self.services.values() if it.marked]:
            if service.state == STOPPED and not service.handles:
                service.gone = self.moment
                service.end(self.moment)
                del self.services[service.number]


def followed(lines):
    """The run that the lines tell, to its end."""
    opening, at = opening_of(lines)
    run = Run(opening)
    for entry in entries_of(lines, at):
        try:
            run.step(entry)
        except Wrong as why:
            raise Wrong(f"line {entry.line}: {why}") from None
        except (ArithmeticError, AttributeError, LookupError, TypeError, ValueError, struct.error):
            raise Wrong(f"line {entry.line}: it is no step that can be made there") from None
    run.close()
    return run
