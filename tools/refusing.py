"""What tools/refuse_memory and tools/refuse_host share: the program's runs under calls that fail, and how each run has to end."""
import base64
import collections
import os
import re
import socket
import struct
import subprocess
import time

# How long a run, and one wait of a client, may take, in seconds.
RUN_TIME, WAIT = 60, 4
SMALL = ["--dex", "data/small/dex.json", "--config", "data/small/config.json"]
COMMUNITY = ["--dex", "data/small/dex.json", "--config", "data/samples/community.json"]
NO_MEMORY, LINE_OF_NO_MEMORY = 13, b"psd: NoMemory\n"


def text_of(name):
    with open(name, "rb") as file:
        return file.read()


def first_turn():
    """The script of a challenge, up to its first turn."""
    return text_of("data/scripts/challenge.txt").split(b"\n; The second")[0] + b"\n"


class Run(collections.namedtuple("Run", "words given")):
    """The words of a run, and its standard input."""


def runs(folder):
    """The runs that have a name; files that they need are made in the folder."""
    bad_dex, bad_config = f"{folder}/dex.json", f"{folder}/config.json"
    with open(bad_dex, "w", encoding="utf-8") as file:
        file.write(text_of("data/small/dex.json").decode().replace('"power"', '"power": "none", "was"', 1))
    with open(bad_config, "w", encoding="utf-8") as file:
        file.write('{"groups": [{"symbol": "@", "name": "Mod"}, {"symbol": "x", "name": ""}], "formats": []}')
    lobby = text_of("data/scripts/lobby.txt")
    return {
        "lobby": Run(["replay"], lobby),
        "turn": Run(["replay", *SMALL], first_turn()),
        "evening": Run(["replay", *COMMUNITY], text_of("data/scripts/evening.txt")),
        "check": Run(["check", "gen1ou", "data/teams/tauros.txt", *SMALL], b""),
        "drill": Run(["drill", "20", *SMALL], b""),
        "bad_dex": Run(["replay", "--dex", bad_dex], lobby),
        "bad_config": Run(["replay", "--config", bad_config], lobby),
    }


class End(collections.namedtuple("End", "status out line calls blocks")):
    """How a run ended: its status (None if it had to be stopped), what it wrote on standard output and on standard error, the
    calls that were counted, and the blocks of memory that it left."""


class Refuser:
    """Runs the program with the library preloaded. `calls` is what REFUSE_CALLS says."""

    def __init__(self, program, folder):
        self.program, self.folder = os.path.abspath(program), folder
        self.library, self.count = f"{folder}/refuse.so", f"{folder}/count"
        source = os.path.join(os.path.dirname(os.path.abspath(__file__)), "refuse.c")
        subprocess.run(["cc", "-O1", "-shared", "-fPIC", "-o", self.library, source, "-ldl"], check=True)

    def environment(self, calls, at, on, listens=False):
        told = {"LD_PRELOAD": self.library, "REFUSE_CALLS": calls, "REFUSE_AT": str(at), "REFUSE_COUNT": self.count}
        if on:
            told["REFUSE_ON"] = "1"
        if listens:
            told["REFUSE_LISTEN"] = "1"
        return told

    def counted(self):
        try:
            with open(self.count, encoding="utf-8") as file:
                return tuple(map(int, file.read().split()))
        except (OSError, ValueError):
            return 0, 0

    def end_of(self, run, calls, at, on=False):
        if os.path.exists(self.count):
            os.remove(self.count)
        words = [self.program, *run.words]
        try:
            ran = subprocess.run(
                words, input=run.given, capture_output=True, timeout=RUN_TIME, env=self.environment(calls, at, on)
            )
        except subprocess.TimeoutExpired:
            return End(None, b"", b"", 0, 0)
        return End(ran.returncode, ran.stdout, ran.stderr, *self.counted())


class Ends(collections.Counter):
    """How often each end came, and the wrong ones."""

    def __init__(self):
        super().__init__()
        self.wrong = []

    def add(self, what, end, allowed):
        """`allowed` is the name of the end, or None if it can't stand."""
        if allowed is None:
            self.wrong.append(what)
            print(f"WRONG {what}: {end}", flush=True)
            allowed = "WRONG"
        self[allowed] += 1

    def __str__(self):
        return ", ".join(f"{count} {name}" for name, count in sorted(self.items())) or "none"


# ---- a client over a socket


class Gone(Exception):
    """The server ended the connection, or answers nothing in its time."""


class Client:
    """A WebSocket client, which keeps the texts that it was sent. A small one has little room for what it doesn't read."""

    def __init__(self, port, small=False):
        self.texts, self.over, self.is_whole, self.left = [], False, False, b""
        self.socket = socket.socket()
        if small:
            self.socket.setsockopt(socket.SOL_SOCKET, socket.SO_RCVBUF, 4096)
        self.socket.settimeout(WAIT)
        self.socket.connect(("127.0.0.1", port))
        self.socket.setsockopt(socket.IPPROTO_TCP, socket.TCP_NODELAY, 1)

    def shake_hands(self, wait=WAIT):
        key = base64.b64encode(os.urandom(16)).decode()
        head = f"GET / HTTP/1.1\r\nHost: a\r\nUpgrade: websocket\r\nConnection: Upgrade\r\nSec-WebSocket-Key: {key}\r\n"
        self.put(f"{head}Sec-WebSocket-Version: 13\r\n\r\n".encode())
        self.finish_hands(wait)

    def finish_hands(self, wait=WAIT):
        self.socket.settimeout(wait)
        while b"\r\n\r\n" not in self.left:
            self.take()
        head, self.left = self.left.split(b"\r\n\r\n", 1)
        if b" 101 " not in head:
            raise Gone
        self.socket.settimeout(WAIT)

    def put(self, data):
        try:
            self.socket.sendall(data)
        except OSError:
            raise Gone from None

    def take(self):
        try:
            more = self.socket.recv(65536)
        except TimeoutError:
            raise
        except OSError:
            raise Gone from None
        if not more:
            raise Gone
        self.left += more

    def need(self, count):
        while len(self.left) < count:
            self.take()
        taken, self.left = self.left[:count], self.left[count:]
        return taken

    def frame(self):
        """The next frame: its kind, and what it has."""
        kept = self.left
        try:
            head = self.need(2)
            size = head[1] & 127
            if size == 126:
                size = struct.unpack(">H", self.need(2))[0]
            elif size == 127:
                size = struct.unpack(">Q", self.need(8))[0]
            return head[0] & 15, self.need(size)
        except TimeoutError:
            self.left = kept
            raise

    def send(self, kind, data):
        size = len(data)
        head = bytes([128 | kind, 128 | size]) if size < 126 else bytes([128 | kind, 254]) + struct.pack(">H", size)
        self.put(head + b"\0\0\0\0" + data)

    def hear(self, kind):
        """Takes frames up to one of this kind."""
        while True:
            got, data = self.frame()
            if got == 1:
                self.texts.append(data.decode())
            if got == kind:
                return
            if got == 8:
                raise Gone

    def say(self, text):
        """Says a text, if there is one, and waits until the server has answered what came before a ping behind it."""
        if text:
            self.send(1, text.encode())
        self.send(9, b"here")
        self.hear(10)

    def close(self):
        """Closes, and waits for the server's close."""
        self.send(8, struct.pack(">H", 1000))
        self.hear(8)
        self.is_whole = True

    def hang_up(self):
        """Takes what still comes, and lets the socket go."""
        self.over = True
        self.socket.settimeout(1)
        try:
            self.hear(8)
        except (Gone, OSError):
            pass
        self.socket.close()


# ---- a server and two clients

TAUROS = "Tauros||||bodyslam,hyperbeam,blizzard,earthquake|||||||"
SNORLAX = "Snorlax||||bodyslam,rest|||||||"
BATTLE, NOWHERE = "battle-gen1ou-1", "battle-gen1ou-9"
STARTS = "|/accept Ann"
NAMES = {1: "Ann", 2: "Bob"}
STEPS = [
    (1, "|/trn Ann,0,"),
    (2, "|/trn Bob,0,"),
    (1, "|/join lobby"),
    (2, "|/join lobby"),
    (2, "lobby|hi"),
    (1, "|/pm Bob, psst"),
    (1, f"|/utm {TAUROS}"),
    (2, f"|/utm {SNORLAX}"),
    (1, "|/challenge Bob, gen1ou"),
    (2, STARTS),
    (1, f"|/join {BATTLE}"),
    (2, f"|/join {BATTLE}"),
    (1, f"{BATTLE}|/choose move 1|1"),
    (2, f"{BATTLE}|/choose move rest|1"),
    (2, ""),
    (1, "lobby|bye"),
    (2, ""),
]


class Talk:
    """What became of a server's two clients: the steps as they came. A step is a connection, what it did (`+`, a text, or `-` for
    its end), and whether that surely stands: a text whose answer didn't come may stand or not, and so may the Quits of a
    connection that the server ended, or of any if memory is refused (`quits_may_fail`)."""

    def __init__(self, port, server, quits_may_fail):
        self.port, self.server, self.quits_may_fail = port, server, quits_may_fail
        self.steps, self.clients, self.late = [], {}, None

    def connect(self, conn):
        for _ in range(1000):
            try:
                client = Client(self.port)
                break
            except OSError:
                if self.server.poll() is not None:
                    return
                time.sleep(0.01)
        else:
            return
        self.clients[conn] = client
        try:
            client.shake_hands(1 if conn == 2 else WAIT)
            self.steps.append((conn, "+", True))
            client.say("")
        except TimeoutError:
            if conn == 2 and not any(step[0] == 2 for step in self.steps):
                self.late = client
            else:
                self.lose(conn)
        except Gone:
            if not any(step[0] == conn for step in self.steps):
                self.steps.append((conn, "+", False))
            self.lose(conn)

    def lose(self, conn):
        self.steps.append((conn, "-", False))
        self.clients[conn].hang_up()

    def act(self, conn, text):
        client = self.clients.get(conn)
        if client is None or client.over:
            return
        try:
            client.say(text)
            if text:
                self.steps.append((conn, text, True))
        except (Gone, TimeoutError):
            if text:
                self.steps.append((conn, text, False))
            self.lose(conn)

    def leave(self, conn):
        client = self.clients.get(conn)
        if client is None or client.over:
            return
        try:
            client.say("")
            client.close()
            self.steps.append((conn, "-", not self.quits_may_fail))
            client.hang_up()
        except (Gone, TimeoutError):
            self.lose(conn)

    def settle(self, conn, other):
        """Waits until the Quits of a connection stand, which come behind its close: until the other was told of them."""
        client = self.clients.get(other)
        ends = time.time() + 1
        while client and not client.over and time.time() < ends:
            self.act(other, "")
            if any("|l| " in text for text in client.texts):
                return
            time.sleep(0.02)

    def go(self):
        self.connect(1)
        self.connect(2)
        late, steps = self.late, STEPS
        if late:
            # The session of connection 1 runs in the thread of the door.
            steps = [it for it in STEPS if it[0] == 1]
            self.clients.pop(2)
        for conn, text in steps:
            self.act(conn, text)
        self.leave(1)
        if late:
            self.clients[2] = late
            try:
                late.finish_hands()
                self.steps.append((2, "+", True))
                late.say("")
            except (Gone, TimeoutError):
                self.steps.append((2, "+", False))
                self.lose(2)
            for conn, text in STEPS:
                if conn == 2:
                    self.act(conn, text)
        self.settle(1, 2)
        self.leave(2)


def by_place(texts):
    """Messages by the place that they come from, with no moment in them."""
    places = collections.defaultdict(list)
    for text in texts:
        place = text.split("\n", 1)[0] if text.startswith(">") else ""
        places[place].append(re.sub(r"\|c:\|\d+\|", "|c:|0|", text))
    return places


def sent_in(transcript):
    """The messages of each connection in a transcript."""
    sent = collections.defaultdict(list)
    for line in transcript.decode().splitlines():
        found = re.match(r"(\d+)(< |\. )(.*)", line)
        if not found:
            continue
        conn, kind, rest = int(found[1]), found[2], found[3]
        if kind == "< ":
            sent[conn].append(rest)
        else:
            sent[conn][-1] += "\n" + rest
    return sent


def without_farewell(texts, place, conn):
    """What a session hands out that its client ended: all but that the client itself leaves the room, which comes with its end."""
    farewell = f"{place}\n|l| {NAMES[conn]}"
    return texts[:-1] if texts[-1:] == [farewell] else texts


def histories(steps):
    """The histories that can stand for what came, grouped by the texts that stand: each doubtful text stands or not, and each
    doubtful end stands at any place behind the connection's last step, since a client can see it before the Quits stand, or not
    at all."""
    texts = [at for at, step in enumerate(steps) if not step[2] and step[1] != "-"]
    if not texts:
        return [ended_anywhere(steps)]
    at = texts[0]
    conn, what, _ = steps[at]
    before, behind = steps[:at], steps[at + 1:]
    found = histories(before + behind) + histories(before + [(conn, what, True)] + behind)
    if what == STARTS:
        # The entry that starts a battle may stand and its Begin be missing: then the room isn't there.
        found += histories(before + [(conn, what, True)] + [(who, it.replace(BATTLE, NOWHERE), sure) for who, it, sure in behind])
    return found


def ended_anywhere(steps):
    """The histories of these steps, of which only ends are doubtful."""
    at = next((at for at, step in enumerate(steps) if not step[2]), None)
    if at is None:
        return [[(conn, what) for conn, what, _ in steps]]
    conn, without = steps[at][0], steps[:at] + steps[at + 1:]
    last = max([place for place, step in enumerate(without) if step[0] == conn], default=None)
    found = ended_anywhere(without)
    if last is not None:
        for place in range(last + 1, len(without) + 1):
            found += ended_anywhere(without[:place] + [(conn, "-", True)] + without[place:])
    return found


def script_of(history):
    """The script of a history, whose connections count from 1 in the order in which they came."""
    numbers, lines = {}, []
    for conn, what in history:
        if what == "+":
            numbers[conn] = len(numbers) + 1
            lines.append(f"+{numbers[conn]}")
        elif conn not in numbers:
            return None, None
        elif what == "-":
            lines.append(f"-{numbers[conn]}")
        else:
            lines.append(f">{numbers[conn]} {what}")
    return "\n".join(lines) + "\n", numbers


class Server:
    """Servers of two clients, whose talk is compared with what the program's `replay` makes of the entries that stand."""

    def __init__(self, refuser):
        self.refuser, self.port, self.transcripts = refuser, 21000 + os.getpid() % 5000, {}

    def transcript(self, script):
        if script not in self.transcripts:
            ran = subprocess.run(
                [self.refuser.program, "replay", *SMALL], input=script.encode(), capture_output=True, timeout=RUN_TIME
            )
            self.transcripts[script] = sent_in(ran.stdout) if ran.returncode == 0 else None
        return self.transcripts[script]

    def fits(self, talk, histories_of_texts):
        """Whether each place has a history that fits: the Quits of a session that broke off come one after another, so in two places
        they can stand before and behind another's text."""
        open_places = {place for client in talk.clients.values() for place in by_place(client.texts)}
        for history in histories_of_texts:
            script, numbers = script_of(history)
            sent = script and self.transcript(script)
            if sent is None:
                continue
            open_places -= {place for place in open_places if self.fits_at(talk, place, sent, numbers)}
            if not open_places:
                return True
        return False

    @staticmethod
    def fits_at(talk, place, sent, numbers):
        for conn, client in talk.clients.items():
            wanted = by_place(sent[numbers[conn]]) if conn in numbers else {}
            wanted, texts = wanted.get(place, []), by_place(client.texts).get(place, [])
            if wanted[: len(texts)] != texts:
                return False
            if client.is_whole and without_farewell(wanted, place, conn) != texts:
                return False
        return True

    def end_of(self, calls, at, on=False):
        """How a server ended, what its clients did, and whether what they were sent is what some history gives."""
        self.port = self.port + 1 if self.port < 31000 else 21000
        if os.path.exists(self.refuser.count):
            os.remove(self.refuser.count)
        words = [self.refuser.program, "serve", f"127.0.0.1:{self.port}", "2", *SMALL]
        how = {"stdin": subprocess.DEVNULL, "stdout": subprocess.PIPE, "stderr": subprocess.PIPE}
        server = subprocess.Popen(words, env=self.refuser.environment(calls, at, on, listens=True), **how)
        talk = Talk(self.port, server, quits_may_fail=calls == "memory" and at > 0)
        try:
            talk.go()
            for client in talk.clients.values():
                if not client.over:
                    client.hang_up()
            # A server that let nobody in waits for its links still: they come and go.
            for _ in range(2):
                try:
                    server.wait(1)
                except subprocess.TimeoutExpired:
                    try:
                        socket.create_connection(("127.0.0.1", self.port), timeout=1).close()
                    except OSError:
                        pass
            out, line = server.communicate(timeout=40)
        except subprocess.TimeoutExpired:
            server.kill()
            out, line = server.communicate()
            return End(None, out, line, 0, 0), talk, False
        end = End(server.returncode, out, line, *self.refuser.counted())
        return end, talk, any(self.fits(talk, it) for it in histories(talk.steps))
