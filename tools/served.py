"""What tools/attack_server and tools/load_server share: a server that is started, what it takes, and a client that waits."""
import os
import re
import resource
import select
import signal
import socket
import subprocess
import sys
import time

TOP = os.path.dirname(os.path.dirname(os.path.abspath(__file__)))
SMALL = ["--dex", os.path.join(TOP, "data/small/dex.json"), "--config", os.path.join(TOP, "data/small/config.json")]
WAIT = 30
TEXT, CLOSE = 1, 8
REQUEST = (
    b"GET / HTTP/1.1\r\nHost: localhost\r\nUpgrade: websocket\r\nConnection: Upgrade\r\n"
    b"Sec-WebSocket-Key: dGhlIHNhbXBsZSBub25jZQ==\r\nSec-WebSocket-Version: 13\r\n\r\n"
)


class Wrong(Exception):
    """What a server did is not what it should."""


def take_all_descriptors():
    """Lets this process, and the servers that it starts, have as many descriptors as the host allows; who ends it ends them."""
    signal.signal(signal.SIGTERM, lambda *_: sys.exit(143))
    most = resource.getrlimit(resource.RLIMIT_NOFILE)[1]
    resource.setrlimit(resource.RLIMIT_NOFILE, (most, most))


def free_port():
    with socket.socket() as door:
        door.bind(("127.0.0.1", 0))
        return door.getsockname()[1]


def is_listening(port):
    """Whether somebody listens at the port of loopback; to connect would use up one of a server's connections."""
    with open("/proc/net/tcp", encoding="ascii") as file:
        return any(re.match(rf"\s*\d+: 0100007F:{port:04X} \S+ 0A ", line) for line in file)


class Server:
    """A server on a port that was free. `words_for` makes its words of the port."""

    def __init__(self, words_for):
        self.port = free_port()
        pipes = {"stdin": subprocess.DEVNULL, "stdout": subprocess.PIPE, "stderr": subprocess.STDOUT}
        self.process = subprocess.Popen(words_for(self.port), **pipes)
        ends = time.monotonic() + WAIT
        while not is_listening(self.port):
            if self.process.poll() is not None or time.monotonic() > ends:
                self.kill()
                raise Wrong(f"the server doesn't listen: {self.process.stdout.read()[:400]!r}")
            time.sleep(0.02)

    def memory(self):
        """Megabytes of 1,000,000 bytes: those that are resident, the most that were, and those that may be written."""
        with open(f"/proc/{self.process.pid}/status", encoding="ascii") as file:
            told = dict(line.split(":", 1) for line in file)
        return {name: int(told[name].split()[0]) * 1024 / 1e6 for name in ("VmRSS", "VmHWM", "VmData") if name in told}

    def resident(self):
        return self.memory().get("VmRSS", 0)

    def top(self):
        return self.memory().get("VmHWM", 0)

    def forget_top(self):
        """The most that was resident counts anew."""
        with open(f"/proc/{self.process.pid}/clear_refs", "w", encoding="ascii") as file:
            file.write("5")

    def limit(self, megabytes):
        """What the server may have of memory that it can write, from now on; None is no limit."""
        size = resource.RLIM_INFINITY if megabytes is None else int(megabytes * 1e6)
        resource.prlimit(self.process.pid, resource.RLIMIT_DATA, (size, resource.RLIM_INFINITY))

    def processor(self):
        """The seconds of processors that it took so far."""
        with open(f"/proc/{self.process.pid}/stat", encoding="ascii") as file:
            told = file.read().rsplit(") ", 1)[1].split()
        return (int(told[11]) + int(told[12])) / os.sysconf("SC_CLK_TCK")

    def is_up(self):
        return self.process.poll() is None

    def kill(self):
        self.process.kill()
        self.process.wait()

    def end_failure(self):
        """What is wrong with the end of the server behind its last connection, or None."""
        try:
            written, _ = self.process.communicate(timeout=WAIT)
        except subprocess.TimeoutExpired:
            self.kill()
            return "it didn't end behind its last connection"
        return None if self.process.returncode == 0 else f"status {self.process.returncode}, and it wrote {written[-400:]!r}"


def psd(program, count, files=()):
    """A psd server of so many connections."""
    return Server(lambda port: [program, "serve", f"127.0.0.1:{port}", str(count), *files])


def frame(text, kind=TEXT):
    """A frame of a client, with a mask of zeros."""
    size = len(text)
    head = bytes([0x80 | kind, 0x80 | size]) if size < 126 else bytes([0x80 | kind, 0xFE]) + size.to_bytes(2, "big")
    return head + b"\0\0\0\0" + text


def frame_at(given, at):
    """Where the text of the frame at `at` begins and where it ends; None where not all of its head is there."""
    if len(given) < at + 2:
        return None
    size, begin = given[at + 1] & 127, at + 2
    if size > 125:
        begin += 2 if size == 126 else 8
        if len(given) < begin:
            return None
        size = int.from_bytes(given[at + 2 : begin], "big")
    return begin, begin + size


class Client:
    """A connection to a server, which waits for what it is sent. `bytes` is what came and wasn't taken yet. Where `room` is given,
    the host keeps about as many bytes for a client that doesn't read."""

    def __init__(self, port, room=None):
        self.socket, self.bytes = socket.socket(), bytearray()
        if room is not None:
            self.socket.setsockopt(socket.SOL_SOCKET, socket.SO_RCVBUF, room)
        self.socket.settimeout(WAIT)
        self.socket.connect(("127.0.0.1", port))
        self.socket.setsockopt(socket.IPPROTO_TCP, socket.TCP_NODELAY, 1)
        self.socket.sendall(REQUEST)
        while b"\r\n\r\n" not in self.bytes:
            self.more()
        head, self.bytes = self.bytes.split(b"\r\n\r\n", 1)
        if b" 101 " not in head:
            raise Wrong(f"no handshake: {bytes(head)!r}")

    def more(self):
        got = self.socket.recv(1 << 20)
        if not got:
            raise Wrong(f"the server ended the connection, behind {bytes(self.bytes[-100:])!r}")
        self.bytes += got

    def say(self, text):
        self.socket.sendall(frame(text.encode()))

    def message(self):
        """The text of the next frame."""
        while (found := frame_at(self.bytes, 0)) is None or len(self.bytes) < found[1]:
            self.more()
        kind, text = self.bytes[0] & 15, bytes(self.bytes[found[0] : found[1]])
        del self.bytes[: found[1]]
        if kind == CLOSE:
            raise Wrong(f"the server closed: {text!r}")
        return text

    def wait_for(self, *parts):
        """The next message that has one of these parts; those before it are dropped."""
        while True:
            text = self.message()
            if any(part in text for part in parts):
                return text

    def log_in(self, name):
        """Whether the name is the client's now."""
        self.say(f"|/trn {name},0,")
        return b"|updateuser|" in self.wait_for(b"|updateuser| " + name.encode(), b"|nametaken|", b"|popup|")

    def join(self, room):
        """The message that a joiner gets; a battle's room stands a moment after it was told of."""
        for _ in range(200):
            self.say(f"|/join {room}")
            text = self.wait_for(b"|init|", b"|popup|[NoSuchRoom]", b"|error|")
            if b"|init|" in text:
                return text
            time.sleep(0.01)
        raise Wrong(f"no room {room}: {text!r}")

    def close(self):
        """Ends the connection, without waiting."""
        try:
            self.socket.settimeout(1)
            self.socket.sendall(frame(b"\x03\xe8", CLOSE))
        except OSError:
            pass
        self.socket.close()


def drained(clients):
    """Closes clients, each behind what it is still sent, so that no end is a reset."""
    ends, left, poll = time.monotonic() + WAIT, {}, select.poll()
    for client in clients:
        try:
            client.socket.settimeout(WAIT)
            client.socket.sendall(frame(b"\x03\xe8", CLOSE))
            left[client.socket.fileno()] = client
            poll.register(client.socket, select.POLLIN)
        except OSError:
            client.socket.close()
    while left and time.monotonic() < ends:
        for number, _ in poll.poll(1000):
            try:
                is_over = not left[number].socket.recv(1 << 20)
            except OSError:
                is_over = True
            if is_over:
                poll.unregister(number)
                left.pop(number).socket.close()
    for client in left.values():
        client.socket.close()
