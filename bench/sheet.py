"""The rows of crates/scmd_tests as what is sent and what is answered, by the formats alone. `rows.rt` has the words."""
import os, re, struct

CRATES = os.path.join(os.path.dirname(os.path.dirname(os.path.abspath(__file__))), "crates")


def source(crate, name):
    """A source file, in which a text goes on in the next line after a backslash."""
    with open(os.path.join(CRATES, crate, "src", f"{name}.rt")) as file:
        return re.sub(r"\\\n\s*", "", file.read())


def constant(file, name):
    """The text of a constant."""
    return re.search(rf'^(?:pub )?const {name}: &str = "(.*?)";', file, re.M | re.S)[1]


def table(file, name):
    """The texts of a constant by their names."""
    rows = re.search(rf"^pub const {name}: Table = &\[(.*?)^\];", file, re.M | re.S)[1]
    return dict(re.findall(r'\(\s*"([^"]*)",\s*"([^"]*)",?\s*\)', rows))


ROWS = source("scmd_tests", "rows")
GROUPS, CALLS = table(ROWS, "GROUPS"), table(source("svcctl_words", "names"), "CALLS")
NAMED = table(source("svcctl_words", "names"), "NAMED")


def cases(name):
    """The runs of a table of rows: what each shows, its status, its words and its rows."""
    for text in ("\n" + constant(ROWS, name)).split("\n= ")[1:]:
        head, _, rows = text.partition("\n")
        status, _, rest = head.partition(" ")
        words, _, shows = rest.partition(":")
        yield shows.strip(), int(status), words.split(), rows


# Bodies.


def units(words):
    part, _, count = words.partition("^")
    return part.replace("_", " ").encode("utf-16-le") * int(count or 1)


def item(word, data, pointer):
    """The bytes of an item of a body after these."""
    rest, start = word[1:], bytes(-len(data) % 4)
    match word[0]:
        case "h":
            return start + struct.pack("<IQQ", 0, int(rest), 0)
        case "'":
            value = units(rest[:-1]) + bytes(2)
            return start + struct.pack("<III", len(value) // 2, 0, len(value) // 2) + value
        case "[":
            value = b"".join(units(name) + bytes(2) for name in rest[:-1].split("/") if name) + bytes(2)
            return start + struct.pack("<I", len(value)) + value
        case "x":
            part, _, count = rest.partition("^")
            return bytes.fromhex(part) * int(count or 1)
        case "#":
            return start + struct.pack("<I", int(rest, 16))
        case "*":
            return start + struct.pack("<I", pointer)
        case "-":
            return start + bytes(4)
    return start + (bytes.fromhex(NAMED[word]) if word in NAMED else struct.pack("<I", int(word)))


def body(items):
    data, pointer = b"", 0x20000
    for word in items.split():
        data += item(word, data, pointer)
        pointer += 4 * (word == "*")
    return data


# PDUs.


def pdu(kind, flags, call, rest):
    return struct.pack("<BBBBIHHI", 5, 0, kind, flags, 16, 16 + len(rest), 0, call) + rest


def column(words, call, asks):
    """A column of a row of a connection."""
    first, _, items = words.partition(" ")
    if first in ("", "hex"):
        return bytes.fromhex(items)
    if first == "pdu":
        kind, flags, number, *rest = items.split()
        return pdu(int(kind), int(flags), int(number), body(" ".join(rest)))
    if first == "fault":
        return pdu(3, 3, call, body(f"0 0 {items} 0"))
    opnum = int(CALLS.get(first, first)) if asks else 0
    stub = body(items if asks else words)
    return pdu(2 * (not asks), 3, call, struct.pack("<IHH", len(stub), 0, opnum) + stub)


# Lines of a replay.


def line(words, asks):
    """A step, or the answer of one."""
    words = words.split()
    if not asks:
        return f"reply {body(' '.join(words[1:])).hex()}" if words[0] == "reply" else " ".join(words)
    moment = words.pop(0) if words[0].isdigit() else "0"
    if words[0] in ("call", "failcall"):
        verb, caller, call, *items = words
        words = [verb, caller, CALLS.get(call, call), body(" ".join(items)).hex()]
    return " ".join([moment, *words])


def lines(words, times, asks):
    if words.startswith("hex "):
        return bytes.fromhex(words[4:])
    return "".join(line(it, asks) + "\n" for it in words.split(";") * times if words).encode()


def sides(is_pipe, rows):
    """What these rows ask, and what they are answered."""
    told, asked, number = b"", b"", 0
    for row in (row for name in rows.split("\n") for row in GROUPS.get(name, name).split("\n") if row):
        number += 1
        asks, tells = ([*map(str.strip, row.split("|")), "", ""])[1:3]
        if is_pipe:
            asked, told = asked + column(asks, number, True), told + column(tells, number, False)
        else:
            times, _, asks = asks.rpartition(" times ")
            asked, told = asked + lines(asks, int(times or 1), True), told + lines(tells, int(times or 1), False)
    return asked, told
