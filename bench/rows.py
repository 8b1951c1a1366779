"""What the scripts that try rows share: a server whose ports are watched, what a row says is wrong, and the table of rows."""
import signal, socket, subprocess, sys, tempfile, time

from programs import free_ports, program

SCMD = program("scmd")
DEAF = 10  # seconds after which a port that gives nothing is deaf


class Wrong(Exception):
    pass


def same(what, found, wanted):
    if found != wanted:
        raise Wrong(f"{what}: {found!r}, and not {wanted!r}")


class Scmd:
    """`scmd serve` with these words, started by a shell with a redirection, once it listens or has ended."""

    def __init__(self, *words, redirect="", before=None, scmd=SCMD):
        self.admin, self.user = free_ports(2)
        ports = ["--admin", str(self.admin), "--user", str(self.user)]
        line = ["sh", "-c", f'exec "$@" {redirect}', "sh", scmd, "serve", *ports, *words]
        self.process = subprocess.Popen(line, stdout=subprocess.PIPE, stderr=subprocess.PIPE, preexec_fn=before)
        end = time.monotonic() + DEAF
        while not (self.listens(self.admin) and self.listens(self.user)):
            if self.process.poll() is not None:
                return
            if time.monotonic() > end:
                raise Wrong("the server doesn't listen and doesn't end")
            time.sleep(0.01)

    @staticmethod
    def listens(port):
        """Whether a socket listens on the port, which takes no connection to find out."""
        with open("/proc/net/tcp") as rows:
            return any(row.split()[1] == f"0100007F:{port:04X}" and row.split()[3] == "0A" for row in rows)

    def end(self):
        """Its status, once it ends by itself, and what it printed."""
        try:
            text, _ = self.process.communicate(timeout=DEAF)
        except subprocess.TimeoutExpired:
            self.kill()
            raise Wrong("the server doesn't end")
        return self.process.returncode, text

    def kill(self):
        self.process.send_signal(signal.SIGKILL)
        self.process.communicate()

    def __enter__(self):
        return self

    def __exit__(self, *_):
        if self.process.poll() is None:
            self.kill()


def silent(port, count):
    """So many connections that send nothing."""
    return [socket.create_connection(("127.0.0.1", port), timeout=DEAF) for _ in range(count)]


def are_closed(connections):
    """How many of them the server has closed."""
    closed = 0
    for it in connections:
        it.settimeout(0)
        try:
            closed += it.recv(1) == b""
        except BlockingIOError:
            pass
        except OSError:
            closed += 1
    return closed


def close(connections):
    for it in connections:
        it.close()


def until(what, holds):
    end = time.monotonic() + DEAF
    while not holds():
        if time.monotonic() > end:
            raise Wrong(f"not in {DEAF} seconds: {what}")
        time.sleep(0.01)


def try_rows(rows):
    """Tries the rows that the arguments name, or all, each in a folder of its own. Ends with 0 only if all hold."""
    names = [name for name in rows if not sys.argv[1:] or any(name.startswith(it) for it in sys.argv[1:])]
    held = 0
    for name in names:
        with tempfile.TemporaryDirectory(dir="/tmp") as work:
            try:
                told = rows[name](work)
                held += 1
                print(f"{name}: holds" + (f": {told}" if told else ""), flush=True)
            except Wrong as wrong:
                print(f"{name}: {wrong}", flush=True)
    print(f"{held} of {len(names)} hold")
    sys.exit(0 if held == len(names) and names else 1)
