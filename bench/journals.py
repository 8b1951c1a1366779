"""Journals of many changes, made from the format alone (`docs/WIRE.md`). Services come in tens, and each needs two or three of those before it
in its ten. In the order of the rounds each service is created, changed eight times, removed and created again, and changed nine times."""
import struct

HEADER = bytes.fromhex("53434d4a01000000")
CREATED, CHANGED, REMOVED = 1, 2, 3
ROUNDS, TEN, FIRST_REMOVED = 20, 10, 9


def number(value):
    return struct.pack("<I", value)


def text(words):
    return number(len(words)) + words.encode("utf-16-le")


def name_of(service):
    return f"Service{service}"


def needs_of(service):
    """The services that one needs: up to three of those before it in its ten."""
    before = range(service - service % TEN, service)
    return list(before)[-3 if service % 2 else -2:]


def config(service, turn):
    needs = needs_of(service)
    texts = text(name_of(service)) + text(f"Service number {service}")
    numbers = number(0x10) + number(3) + number(1)
    path = text(f"/srv/{service} -turn {turn}")
    group = text(f"Group{service // TEN}" if service % 3 == 0 else "") + number(0)
    listed = number(len(needs)) + b"".join(b"\0" + text(name_of(it)) for it in needs)
    description = text(f"What service {service} does")
    actions = number(86400) + number(1) + number(1) + number(1000)
    return texts + numbers + path + group + listed + description + actions + text("") + b"\0"


def entry(kind, body):
    return bytes([kind]) + number(len(body)) + body


def entries_of(service, turn):
    """What a round does to a service."""
    if turn == FIRST_REMOVED:
        return entry(REMOVED, text(name_of(service))) + entry(CREATED, config(service, turn))
    if turn == FIRST_REMOVED + 1:
        return b""
    return entry(CHANGED if turn else CREATED, config(service, turn))


def write(path, changes):
    with open(path, "wb") as file:
        file.write(HEADER)
        for turn in range(ROUNDS):
            for service in range(changes // ROUNDS):
                file.write(entries_of(service, turn))
