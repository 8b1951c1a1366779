"""What scripts of this folder share: where the built programs are, a server on ports of the loopback, and an administrator's connection to it."""
import os, shutil, socket, struct, subprocess, sys, time


def program(name):
    """The program that the variable of its name in capitals names, or the one in PATH, or the one that ./install puts in place."""
    named = os.environ.get(name.upper())
    found = named or shutil.which(name) or os.path.expanduser(f"~/.local/bin/{name}")
    if not os.access(found, os.X_OK):
        sys.exit(f"{found} is no program: run ./install, or set {name.upper()} to the path of a built {name}")
    return os.path.realpath(found)


def free_ports(count):
    """Ports of the loopback at which nobody listens just now."""
    sockets = [socket.create_server(("127.0.0.1", 0)) for _ in range(count)]
    ports = [it.getsockname()[1] for it in sockets]
    for it in sockets:
        it.close()
    return ports


class Server:
    """A server that takes so many connections and then ends. The first of them only finds out that it listens."""

    def __init__(self, words, port, take):
        self.port, self.left = port, take
        self.process = subprocess.Popen(words, stdout=subprocess.PIPE, text=True)
        while True:
            try:
                return self.connect().close()
            except ConnectionRefusedError:
                if self.process.poll() is not None:
                    sys.exit(f"{words[0]} ended with status {self.process.returncode} before it listened")

    def connect(self):
        connection = socket.create_connection(("127.0.0.1", self.port))
        connection.setsockopt(socket.IPPROTO_TCP, socket.TCP_NODELAY, 1)
        self.left -= 1
        return connection

    def end(self):
        """Uses up what is left of its connections. Its status, and what it printed."""
        while self.left:
            self.connect().close()
        text, _ = self.process.communicate(timeout=60)
        return self.process.returncode, text


def scmd_serve(scmd, take):
    """The built `scmd serve`, for so many connections of administrators, and for none of users."""
    admin, user = free_ports(2)
    ports = ["--admin", str(admin), "--user", str(user)]
    return Server([scmd, "serve", *ports, "--take-admin", str(take), "--take-user", "0"], admin, take)


BIND = bytes.fromhex(
    "05000b03100000004800000001000000d016d01600000000010000000000010081bb7a364498f135ad3298f03800100302000000"
    "045d888aeb1cc9119fe808002b10486002000000")


def text(words):
    data = (words + "\0").encode("utf-16-le")
    return struct.pack("<III", len(data) // 2, 0, len(data) // 2) + data + bytes(-len(data) % 4)


class Caller:
    """A connection with a handle of the manager: by default what an administrator may have. A handle is its 20 bytes."""

    def __init__(self, connection, access=0xF003F):
        self.connection, self.stream, self.call = connection, connection.makefile("rb"), 1
        connection.sendall(BIND)
        self.pdu()
        self.manager = self.ask(15, struct.pack("<III", 0, 0, access))[:20]

    def pdu(self):
        head = self.stream.read(16)
        return self.stream.read(struct.unpack_from("<H", head, 8)[0] - 16)

    def told(self, opnum, body):
        """The body of the reply to a call."""
        self.call += 1
        head = struct.pack("<BBBBIHHIIHH", 5, 0, 0, 3, 16, 24 + len(body), 0, self.call, len(body), 0, opnum)
        self.connection.sendall(head + body)
        return self.pdu()[8:]

    def ask(self, opnum, body, code=0):
        told = self.told(opnum, body)
        if told[-4:] != struct.pack("<I", code):
            sys.exit(f"call {opnum} was answered {told.hex()}")
        return told

    def create(self, name, path, needs):
        data = "".join(it + "\0" for it in [*needs, ""]).encode("utf-16-le") if needs else b""
        listed = struct.pack("<II", 1, len(data)) + data + bytes(-len(data) % 4) if needs else bytes(4)
        numbers = struct.pack("<IIIII", 0, 0xF01FF, 16, 3, 1)
        rest = listed + struct.pack("<IIII", len(data), 0, 0, 0)
        return self.ask(12, self.manager + text(name) + numbers + text(path) + bytes(8) + rest)[4:24]

    def start(self, service):
        self.ask(19, service + bytes(8))

    def stop(self, service):
        self.ask(1, service + struct.pack("<I", 1))

    def until(self, service, state):
        while struct.unpack_from("<II", self.ask(6, service))[1] != state:
            time.sleep(0.001)
