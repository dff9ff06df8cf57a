"""Programs on links, a gateway among them, and the other side of their link: frames as records of ten bytes, as the scope page lays them out."""
import os
import select
import signal
import socket
import struct
import subprocess
import time

LIMIT = 120  # seconds for anything that must happen: a busy machine is slow
GATEWAY, WATCHED, EXPLAIN = (f"target/hosts/{name}" for name in ("gateway", "calls/gateway", "explain"))
CAN_FRAME = struct.Struct("=IB2xB8s")  # identifier and flags, length, raw DLC over 8, data
EXTENDED, REMOTE, ERROR_FLAG = 0x80000000, 0x40000000, 0x20000000
WRITE, READ, ACTION, EVENT = 4, 5, 6, 7
CHANGE_OFF, CHANGE_ON, CHANGE_OFF_ACK, CHANGE_ON_ACK, WRITE_OFF, WRITE_ON, WRITE_OFF_ACK, WRITE_ON_ACK = range(8)  # of the short form
SUCCESSFUL, ERROR = 1, 2
NO_LINK = object()


class Failure(Exception):
    pass


def expect(what, seen, expected):
    if seen != expected:
        raise Failure(f"{what}\n  expected {shown(expected)}\n  seen     {shown(seen)}")


def shown(value):
    if isinstance(value, (bytes, bytearray)):
        return value.hex(" ") or "no bytes"
    if isinstance(value, list):
        return "\n           ".join(shown(item) for item in value) or "nothing"
    return repr(value)


def record(*values):
    return bytes(values).ljust(10, b"\0")


def frame_of(rec, flags=0):
    dlc = rec[1] & 15
    flags |= REMOTE if rec[1] & 16 else 0
    return CAN_FRAME.pack(flags | rec[0] << 3 | rec[1] >> 5, min(dlc, 8), dlc if dlc > 8 else 0, rec[2:])


def record_of(frame):
    expect("a frame's size", len(frame), CAN_FRAME.size)
    identifier, dlc, raw, data = CAN_FRAME.unpack(frame)
    if identifier > 0x7FF or dlc > 8 or raw:
        raise Failure(f"no standard data frame: {frame.hex(' ')}")
    return bytes([identifier >> 3, (identifier & 7) << 5 | dlc]) + data


def read_line(stream):
    """a line of an unbuffered pipe; nothing at its end or where none comes in time"""
    return stream.readline() if select.select([stream], [], [], LIMIT)[0] else b""


class Host:
    """What a host sends to a guest, and the answers that are due to it."""

    def __init__(self, address=9):
        self.address = address

    def write(self, obj, attribute, data):
        return record(self.address, WRITE << 5 | 2 + len(data), obj, attribute, *data)

    def read(self, obj, attribute):
        return record(self.address, READ << 5 | 2, obj, attribute)

    def fragments(self, obj, attribute, data):
        return [record(self.address, WRITE << 5 | 4 + len(data[i:i + 4]), 32 | obj, attribute, i // 4, len(data), *data[i:i + 4])
                for i in range(0, len(data), 4)]

    def short(self, service):
        return record(self.address, service << 5)

    def short_answer(self, service):
        return record(128 | self.address, service << 5)

    def answer(self, service, response, obj, attribute):
        return record(128 | self.address, service << 5 | 2, response << 6 | obj, attribute)

    def refused(self, service, obj, attribute, code):
        """an Error that says why (02, 2026-06)"""
        return record(128 | self.address, service << 5 | 3, ERROR << 6 | obj, attribute, code)

    def wrote(self, obj, attribute):
        return self.answer(WRITE, SUCCESSFUL, obj, attribute)

    def value(self, obj, attribute, data):
        """the frames that answer a Read"""
        if len(data) <= 6:
            return [record(128 | self.address, READ << 5 | 2 + len(data), SUCCESSFUL << 6 | obj, attribute, *data)]
        return [record(128 | self.address, READ << 5 | 4 + len(data[i:i + 4]), SUCCESSFUL << 6 | 32 | obj, attribute, i // 4, len(data),
                       *data[i:i + 4]) for i in range(0, len(data), 4)]


class Peer:
    """The host's end of a link, one frame in a message."""

    def __init__(self, link):
        self.link = link
        link.settimeout(LIMIT)

    def send(self, *records):
        for rec in records:
            self.link.send(frame_of(rec))

    def receive(self):
        try:
            frame = self.link.recv(64)
        except socket.timeout:
            raise Failure("no answer in time") from None
        if not frame:
            raise Failure("the gateway has closed the link")
        return record_of(frame)

    def converse(self, *turns):
        """sends each record, and sees just the answers that belong to it; one that has none shows by the next one's"""
        for rec, answers in turns:
            self.send(rec)
            expect(f"answers to {rec.hex(' ')}", [self.receive() for _ in answers], list(answers))

    def answered(self):
        """waits for an answer and leaves it unread"""
        expect("an answer", len(select.select([self.link], [], [], LIMIT)[0]), 1)

    def rest(self):
        """the answers until the gateway's end of the link is closed; one that left frames unread shows first as a reset"""
        answers, limit = [], time.monotonic() + LIMIT
        while time.monotonic() < limit:
            try:
                frame = self.link.recv(64)
            except ConnectionResetError:
                continue
            if not frame:
                return answers
            answers.append(record_of(frame))
        raise Failure("answers without an end")

    def close(self):
        self.link.close()


class Program:
    """A program on a link. Where none is named that is a socket pair, whose other end is the program's peer; NO_LINK leaves it out."""

    name = "the program"
    started = []

    def __init__(self, words, link=None, kind=socket.SOCK_SEQPACKET, environment=None, stdin=subprocess.DEVNULL, stdout=subprocess.PIPE):
        self.peer, passed = None, ()
        if link is None:
            ours, theirs = socket.socketpair(socket.AF_UNIX, kind)
            theirs.setsockopt(socket.SOL_SOCKET, socket.SO_SNDBUF, 65536)  # a queue that is soon full, on every machine
            self.peer, passed, link = Peer(ours), (theirs.fileno(),), f"fd:{theirs.fileno()}"
        self.process = subprocess.Popen([*words, *([] if link is NO_LINK else [link])], pass_fds=passed, env=environment,
                                        bufsize=0, stdin=stdin, stdout=stdout, stderr=subprocess.PIPE)
        Program.started.append(self)
        if self.peer:
            theirs.close()

    def line(self, stream, expected):
        """waits for a line; what other lines come before it does not matter"""
        for line in iter(lambda: read_line(stream), b""):
            if line == expected:
                return
        raise Failure(f"no line {expected} of {self.name}; {self.last_words()}")

    def ends(self, status=0, message=None):
        """waits for the end; gives what it printed"""
        try:
            out, error = self.process.communicate(timeout=LIMIT)
        except subprocess.TimeoutExpired:
            self.process.kill()
            raise Failure(f"{self.name} does not end") from None
        out, error = (out or b"").decode(), error.decode()
        expect(f"exit status ({error.strip()})", self.process.returncode, status)
        if message is not None:
            expect("message", error, message)
        return out, error

    def last_words(self):
        """for a failure: ends it and gives what it wrote to stderr"""
        self.process.kill()
        return "its stderr: " + (self.process.communicate()[1].decode() or "nothing")

    def hang_up(self):
        """the peer leaves; a program on a socket pair then ends by itself"""
        self.peer.close()
        return self.ends(0, "")[0]

    def kill(self):
        self.process.kill()
        self.ends(-signal.SIGKILL)

    def stop(self, number=signal.SIGTERM):
        self.process.send_signal(number)
        return self.ends(0)


class Gateway(Program):
    name = "the gateway"

    def __init__(self, device, *options, link=None, program=GATEWAY, fail=None, kind=socket.SOCK_SEQPACKET):
        environment = dict(os.environ, **({"FAIL": fail} if fail else {}))
        super().__init__([program, *device.options(), *options], link, kind, environment)
        if not self.peer and "--trace" in options:
            self.line(self.process.stdout, f"serving address {device.address} on {link}\n".encode())
