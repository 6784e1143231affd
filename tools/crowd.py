"""A crowd of members of one room, of whom some flood it, some read and some don't: what tools/attack_server sets on a server.

All members of one rank get the same bytes for what is said, so a crowd keeps them once, in `said`, from a first text on, and
compares what each member gets with them as it comes; the texts in `said` are looked at once."""
import bisect
import re
import select
import time

from served import CLOSE, Client, Wrong, frame, frame_at

# A member that doesn't read takes a piece in so many seconds all the same: a server may part from who takes nothing for 10.
PATIENCE, PIECE = 6, 2 << 20
# How many bytes the host is to keep for a member that doesn't read.
ROOM = 65536
LENGTH = 300
BEGIN = "all begin here"


class Member:
    """A member of the crowd. `at` is how much of `said` it had; `end` is how its connection ended, or None; `wrong` is what it was
    sent that the others weren't, or None."""

    def __init__(self, crowd, name, is_slow):
        self.crowd, self.name, self.is_slow = crowd, name, is_slow
        self.client = Client(crowd.server.port, ROOM if is_slow else None)
        self.at, self.end, self.wrong, self.left = 0, None, None, memoryview(b"")
        self.closing, self.took = None, time.monotonic()
        if not self.client.log_in(name):
            raise Wrong(f"the name {name} is taken")
        self.client.join(crowd.room)

    def begin(self):
        """Takes all up to the first text."""
        self.client.wait_for(BEGIN.encode())
        rest, self.client.bytes = bytes(self.client.bytes), bytearray()
        self.client.socket.setblocking(False)
        self.took = time.monotonic()
        self.hear(rest)

    def flood(self, texts):
        """What it is to say, as the socket takes it."""
        frames = (frame(f"{self.crowd.room}|{text_of(number)}".encode()) for number in range(texts))
        self.left = memoryview(b"".join(frames))

    def put(self):
        try:
            self.left = self.left[self.client.socket.send(self.left) :]
        except BlockingIOError:
            pass
        except OSError as error:
            self.over(error)

    def take(self, buffer):
        """Takes a piece of what came; the count of its bytes."""
        try:
            count = self.client.socket.recv_into(buffer)
        except BlockingIOError:
            return 0
        except OSError as error:
            self.over(error)
            return 0
        self.took = time.monotonic()
        if count == 0:
            self.over("the end of the stream")
        elif self.closing is not None:
            self.closing += buffer[:count]
        elif self.wrong is None:
            self.hear(buffer[:count])
        return count

    def hear(self, given):
        said, at = self.crowd.said, self.at
        known = min(len(said) - at, len(given))
        if said[at : at + known] != given[:known]:
            self.differ(bytes(said[at : at + known]), bytes(given[:known]), bytes(given))
            return
        self.at += len(given)
        if known < len(given):
            said += given[known:]
            self.crowd.look(self)

    def differ(self, wanted, got, all_of_it):
        """What came differs: it is a Close frame, or wrong."""
        same = next(at for at, (one, other) in enumerate(zip(wanted, got)) if one != other)
        starts, place = self.crowd.starts, self.at + same
        start = starts[bisect.bisect_right(starts, place) - 1]
        if place == start and got[same] == 0x80 | CLOSE:
            self.at, self.closing = place, bytearray(all_of_it[same:])
        else:
            self.wrong = f"wanted {wanted[same:same + 60]!r}, got {got[same:same + 60]!r}"

    def over(self, why):
        if self.end is None:
            self.end = str(why)
            if self.closing is not None and len(self.closing) >= 4:
                self.end = f"closed with {int.from_bytes(self.closing[2:4], 'big')}: {bytes(self.closing[4:]).decode('latin-1')}"
            self.left = memoryview(b"")
            self.crowd.forget(self)


def text_of(number):
    return f"{number:05} ".ljust(LENGTH, "a")


class Crowd:
    """The members by what they do: `flooders` say texts and read, `readers` read, `slow` ones read nothing before they are told to."""

    def __init__(self, server, room, flooders, readers, slow):
        self.server, self.room = server, room
        self.said, self.starts, self.walked = bytearray(), [0], 0
        self.next, self.heard, self.gone, self.odd = {}, 0, [], []
        self.poll, self.by_number, self.buffer = select.epoll(), {}, memoryview(bytearray(1 << 18))
        self.pattern = re.compile(b">" + re.escape(room.encode()) + rb"\n\|c:\|\d+\|.([^|]+)\|(\d{5}) a+", re.DOTALL)
        self.flooders = [Member(self, f"Flooder{n:03}", False) for n in range(flooders)]
        self.readers = [Member(self, f"Reader{n:03}", False) for n in range(readers)]
        self.slow = [Member(self, f"Slow{n:03}", True) for n in range(slow)]
        self.good = self.flooders + self.readers
        self.all = self.good + self.slow
        self.flooders[0].client.say(f"{room}|{BEGIN}")
        for member in self.all:
            self.by_number[member.client.socket.fileno()] = member
            member.begin()
        for member in self.good:
            self.poll.register(member.client.socket, select.EPOLLIN)

    def forget(self, member):
        number = member.client.socket.fileno()
        if self.by_number.pop(number, None) and (not member.is_slow or self.are_all_read):
            self.poll.unregister(number)
        member.client.socket.close()

    are_all_read = False

    def look(self, member):
        """Looks at the whole frames of `said` that weren't looked at; `member` was the first that had them."""
        while (found := frame_at(self.said, self.walked)) is not None or self.is_close():
            if self.is_close():
                member.at, member.closing = self.walked, bytearray(self.said[self.walked :])
                del self.said[self.walked :]
                return
            if found[1] > len(self.said):
                return
            self.hear(bytes(self.said[found[0] : found[1]]))
            self.walked = found[1]
            self.starts.append(found[1])

    def is_close(self):
        return len(self.said) > self.walked and self.said[self.walked] == 0x80 | CLOSE

    def hear(self, text):
        found = self.pattern.fullmatch(text)
        if found:
            name, number = found[1].decode(), int(found[2])
            if self.next.get(name, 0) != number:
                self.odd.append(f"{name} said {self.next.get(name, 0)}, and {number} was heard")
            self.next[name] = number + 1
            self.heard += 1
        elif b"\n|l|" in text:
            self.gone.append(text.split(b"|l|")[1][1:].decode())
        else:
            self.odd.append(f"a message {text[:80]!r}")

    def flood(self, texts):
        """Each flooder says so many texts; ends when all who read had all, or when nothing more came for 10 seconds. The slow take
        a piece where their patience ends. How many seconds it took."""
        for member in self.flooders:
            member.flood(texts)
            self.poll.modify(member.client.socket, select.EPOLLIN | select.EPOLLOUT)
        begun = time.monotonic()
        self.go(lambda: self.is_all_said(texts) and have_all(self.good), True)
        return time.monotonic() - begun

    def read_all(self):
        """The slow read all that was said. How many seconds it took."""
        self.are_all_read = True
        for member in self.slow:
            if member.end is None:
                self.poll.register(member.client.socket, select.EPOLLIN)
        begun = time.monotonic()
        self.go(lambda: have_all(self.all), False)
        return time.monotonic() - begun

    def is_all_said(self, texts):
        """Whether all was heard that those say who are there still."""
        return self.walked == len(self.said) and all(it.end or self.next.get(it.name, 0) == texts for it in self.flooders)

    def go(self, is_done, are_slow):
        """Reads and writes until it is done, or nobody is there, or nothing came for 10 seconds."""
        came = looked = time.monotonic()
        while self.by_number and time.monotonic() < came + 10:
            for number, event in self.poll.poll(0.2, 256):
                member = self.by_number.get(number)
                if member and event & ~select.EPOLLOUT and member.take(self.buffer):
                    came = time.monotonic()
                if member and member.end is None and event & select.EPOLLOUT:
                    self.put(member)
            now = time.monotonic()
            if now > looked + 0.05:
                looked = now
                if is_done():
                    return
                if are_slow:
                    self.nibble(now)

    def put(self, member):
        member.put()
        if not member.left and member.end is None:
            self.poll.modify(member.client.socket, select.EPOLLIN)

    def nibble(self, now):
        for member in self.slow:
            if member.end is None and now > member.took + PATIENCE:
                taken = 0
                while taken < PIECE and (count := member.take(self.buffer)):
                    taken += count

    def failures(self, members):
        """What is wrong with what these members were sent."""
        cut = [f"{it.name}: {it.end}" for it in members if it.end]
        wrong = [f"{it.name}: {it.wrong}" for it in members if it.wrong]
        short = [it.name for it in members if not it.end and not it.wrong and it.at < len(self.said)]
        told = [f"{len(cut)} of {len(members)} cut off, as {cut[0]}"] if cut else []
        told += [f"{len(wrong)} were sent what others weren't, as {wrong[0]}"] if wrong else []
        told += [f"{len(short)} weren't sent all, as {short[0]}"] if short else []
        return "; ".join(told) or None


def have_all(members):
    said = len(members[0].crowd.said)
    return all(it.end or it.wrong or it.at == said for it in members)
