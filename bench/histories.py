"""Exported histories made of replays. An entry has the same line in both, if its body is in the form in which it is written, and its answer
is the replay's after `= `. What is answered otherwise is no step: a look in vain, a step without room, a caller too many, a bad line."""
import struct

import sheet

LIMITS = (1024, 1024, 64, 64, 128, 16, 1 << 24, 1 << 28)  # services, handles, registrations, callers, processes, controls, steps, text
NO_STEPS = {b"again", b"empty", b"over", b"idle", b"full", b"toomany"}
NOT_KEPT = struct.pack("<I", 1013).hex().encode()  # at the end of the answer of a change that can't be kept


def head(moment=0, groups=(), configs=(), limits=LIMITS):
    """The lines of an opening: groups are texts, and configurations are records."""
    lines = [f"limits {' '.join(map(str, limits))}", f"moment {moment}"]
    lines += [f"group {group.encode('utf-16-le').hex()}" for group in groups]
    return "".join(line + "\n" for line in lines + [f"config {config.hex()}" for config in configs]).encode()


def entries(asked, told):
    """The lines of the steps of a replay, each with the line of its answer, by its input and its output. A `failcall` whose step makes no
    change is a `call`."""
    for line, answer in zip(asked.splitlines(), told.splitlines()):
        if answer not in NO_STEPS and not answer.startswith(b"bad line"):
            yield line if answer.endswith(NOT_KEPT) else line.replace(b" failcall ", b" call "), b"= " + answer


def history(asked, told, opening=head()):
    return opening + b"".join(line + b"\n" for entry in entries(asked, told) for line in entry)


def record(name, path, start=3, group="", needs=()):
    """The bytes of the configuration of a service with a process of its own. A need that is a group has a `+` before its name."""

    def text(words):
        return struct.pack("<I", len(words)) + words.encode("utf-16-le")

    needed = b"".join(bytes([need.startswith("+")]) + text(need.lstrip("+")) for need in needs)
    front = text(name) + text(name) + struct.pack("<III", 16, start, 1) + text(path)
    return front + text(group) + struct.pack("<II", 0, len(needs)) + needed + bytes(4 + 4 + 4 + 4 + 1 + 1 + 4)


# The bodies of requests.


class Items:
    """A body, read into the words of a sheet, which write it in the one form that a history has."""

    def __init__(self, data):
        self.data, self.at, self.words = data, 0, []

    def take(self, count):
        self.at += count
        if self.at > len(self.data):
            raise ValueError("it ends within an item")
        return self.data[self.at - count : self.at]

    def read(self):
        self.take(-self.at % 4)
        return struct.unpack("<I", self.take(4))[0]

    def number(self):
        self.words.append(str(self.read()))
        return int(self.words[-1])

    def flag(self):
        self.words.append(str(int(self.read() != 0)))

    def handle(self):
        self.take(-self.at % 4)
        before, number, after = struct.unpack("<IQQ", self.take(20))
        self.words.append(f"h{0 if before or after else number}")

    def text(self):
        _, _, count = self.read(), self.read(), self.read()
        self.words += [str(count), "0", str(count), "x" + self.take(2 * count).hex()]

    def bytes(self):
        count = self.number()
        self.words.append("x" + self.take(count).hex())

    def pointer(self):
        is_there = self.read() != 0
        self.words.append("*" if is_there else "-")
        return is_there

    def some_text(self):
        return self.pointer() and self.text()

    def some_number(self):
        return self.pointer() and self.number()

    def needs(self):
        """Bytes, and their count again, which is 0 where there are none."""
        is_there = self.pointer() and not self.bytes()
        count = self.read()
        self.words.append(str(count) if is_there else "0")

    def dropped(self, item):
        """An item that isn't kept."""
        kept = len(self.words)
        if self.pointer():
            item()
        self.words[kept:] = ["-"]

    def machine(self):
        self.dropped(self.text)

    def password(self):
        self.dropped(self.bytes)
        self.read()
        self.words.append("0")

    def arguments(self):
        """The words of a start. There are none, or the words are absent, where one of them is."""
        kept, count = len(self.words), self.number()
        if self.pointer() and count:
            self.number()
            there = [self.pointer() for _ in range(count)]
            for _ in filter(None, there):
                self.text()
            if all(there):
                return
        self.words[kept:] = [str(min(count, 1)), "-"]

    def level(self):
        level, _, is_there = self.number(), self.number(), self.pointer()
        read = {1: self.some_text, 2: self.failures, 3: self.flag, 4: self.flag, 8: self.triggers}
        if level not in read:
            self.at = len(self.data)
        elif is_there:
            read[level]()

    def failures(self):
        self.number()
        message = self.read()
        self.words.append("-")
        command, count, actions = self.pointer(), self.read(), None
        self.words.append(str(count))
        actions = self.pointer()
        if not actions:
            self.words[-2] = "0"
        if message:
            kept = len(self.words)
            self.text()
            del self.words[kept:]
        if command:
            self.text()
        for _ in range(2 * self.number() if actions else 0):
            self.number()

    def triggers(self):
        count, is_list, _ = self.number(), self.pointer(), self.pointer()
        if is_list:
            there = [(self.number(), self.number(), self.pointer(), self.number(), self.pointer()) for _ in range(self.number())]
            for row in there:
                if row[2]:
                    self.words.append("x" + self.take(16).hex())


H, U, S, O = Items.handle, Items.number, Items.text, Items.some_text
SHAPES = {0: (H,), 1: (H, U), 2: (H,), 3: (H,), 4: (H, U, U), 5: (H, U, Items.bytes, U), 6: (H,), 7: (H,) + 7 * (U,), 8: (H,),
          11: (H, U, U, U, O, O, Items.some_number, Items.needs, O, Items.password, O),
          12: (H, S, O, U, U, U, U, S, O, Items.some_number, Items.needs, O, Items.password), 13: (H, U, U),
          14: (H, U, U, U, Items.some_number), 15: (Items.machine, O, U), 16: (H, S, U), 17: (H, U), 18: (H, U), 19: (H, Items.arguments),
          20: (H, S, U), 21: (H, S, U), 37: (H, Items.level), 39: (H, U, U), 40: (H, U, U), 47: (H, U), 48: (H,), 49: (H,)}


def is_written(opnum, body):
    """Whether a body that can be read is in the form in which its request is written."""
    items = Items(body)
    try:
        for item in SHAPES[opnum]:
            item(items)
    except (KeyError, ValueError):
        return False
    return sheet.body(" ".join(items.words)) == body
