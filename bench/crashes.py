"""What `crash` and `store` share: runs of the built `scmd serve` over one file or store, in each of which the server is killed by SIGKILL at
a random moment while the built `sc` creates, changes and deletes services. At the next opening every change that was answered before has to
stand, and of the one that was in progress all or nothing."""
import os, random, struct, subprocess, sys, tempfile, threading, time

from programs import free_ports, program

SCMD, SC = program("scmd"), program("sc")
RUNS, SEED = int(os.environ.get("RUNS", 100)), int(os.environ.get("SEED", 0))
NAMES = [f"Service{number}" for number in range(12)]
LONGEST = 1.5


class Served:
    """A server over a file or a store, by this option, at a port of its own."""

    def __init__(self, option, file):
        admin, user = free_ports(2)
        words = [SCMD, "serve", option, file, "--admin", str(admin), "--user", str(user), "--take-user", "0"]
        self.address = f"127.0.0.1:{admin}"
        self.process = subprocess.Popen(words, stdout=subprocess.DEVNULL)
        while self.ask("query", "none")[1] == 3:
            if self.process.poll() is not None:
                sys.exit(f"scmd serve ended with status {self.process.returncode} before it listened")
            time.sleep(0.005)

    def ask(self, *words):
        """What `sc` prints, and its status: 0, 1 where the manager refused, and else no whole answer came."""
        ran = subprocess.run([SC, self.address, *words], capture_output=True, text=True, timeout=60)
        return ran.stdout, ran.returncode

    def kill(self):
        self.process.kill()
        self.process.wait()


# What changes come to: a display name for each name.


def change(random_of, state):
    """Words of a change that is accepted over this state, and what it then comes to."""
    name = random_of.choice(NAMES)
    shown = f"{name} {random_of.randrange(1 << 30)}"
    if name not in state:
        return ["create", name, "binPath=", "/bin/true", "DisplayName=", shown], {**state, name: shown}
    if random_of.random() < 0.5:
        return ["config", name, "DisplayName=", shown], {**state, name: shown}
    return ["delete", name], {other: text for other, text in state.items() if other != name}


def go_on(server, random_of, state, killed):
    """Changes one after the other until one isn't answered. What then may stand: before it, and behind it."""
    while True:
        words, after = change(random_of, state)
        text, code = server.ask(*words)
        if code == 0 and " SUCCESS" in text:
            state = after
        elif killed.is_set():
            return [state, after]
        else:
            sys.exit(f"sc {' '.join(words)} gave {code}:\n{text}")


# What stands.


def file_bytes(file):
    """The journal in a file."""
    with open(file, "rb") as opened:
        return opened.read()


def shown_in(journal):
    """The display names in the entries of a journal, replayed."""
    state, rest = {}, journal[8:]  # after the header, if there is one
    while rest:
        kind, size = rest[0], struct.unpack_from("<I", rest, 1)[0]
        body, rest = rest[5 : 5 + size], rest[5 + size :]
        name, behind = text_at(body)
        if kind == 3:
            del state[name]
        else:
            state[name] = text_at(behind)[0]
    return state


def text_at(bytes_of):
    """A text at the front of some bytes, and what stands after it."""
    size = 4 + 2 * struct.unpack_from("<I", bytes_of)[0]
    return bytes_of[4:size].decode("utf-16-le"), bytes_of[size:]


def names_told(server):
    """The names that a server knows, and whether each is stopped and never ran."""
    told = {name: server.ask("query", name) for name in NAMES}
    known = {name: text for name, (text, code) in told.items() if code == 0}
    never_ran = all("STATE: 1 STOPPED" in text and "WIN32_EXIT_CODE: 1077" in text for text in known.values())
    return set(known), never_ran


def holds(server, journal, may_stand):
    """What stands, where it is one of these, and the server tells it; else nothing."""
    known, never_ran = names_told(server)
    stands = shown_in(journal)
    if stands in may_stand and set(stands) == known and never_ran:
        return stands
    print(f"found {stands}, told {known}, and not one of {may_stand}", file=sys.stderr)
    return None


def crash(option, file, bytes_of, random_of, state):
    """One run over what stands. What stands at the next opening, where that holds."""
    server, killed = Served(option, file), threading.Event()

    def kill():
        killed.set()
        server.process.kill()

    timer = threading.Timer(random_of.uniform(0, LONGEST), kill)
    timer.start()
    may_stand = go_on(server, random_of, state, killed)
    timer.join()
    server.kill()
    after = Served(option, file)
    try:
        return holds(after, bytes_of(file), may_stand)
    finally:
        after.kill()


def crashes(option, bytes_of):
    """How many of the runs hold over a file or a store, which this option names and whose journal `bytes_of` gives. It prints that."""
    random_of, state, held = random.Random(SEED), {}, 0
    with tempfile.TemporaryDirectory(dir="/tmp") as here:
        file = os.path.join(here, "journal")
        for _ in range(RUNS):
            stands = crash(option, file, bytes_of, random_of, state)
            held += stands is not None
            state = stands if stands is not None else shown_in(bytes_of(file))
    print(f"{held} of {RUNS} hold", flush=True)
    return held == RUNS
