"""The programs import and export, run on a whole input or held open, and what is due from them."""
import fcntl
import os
import re
import select
import struct
import subprocess
import termios
import time

PATIENCE = 120  # seconds for anything that must happen: a busy machine is slow
PIPE_MOST = 65536  # bytes that are taken from a pipe, or put into one, at a time
REFUSAL = re.compile(r"((?:line|record) [1-9][0-9]*: ([0-9])) (\S.*)")


class Failure(Exception):
    pass


def shown(piece):
    return piece.hex(" ").upper() if isinstance(piece, bytes) and not piece.endswith(b"\n") else repr(piece)


def expect(what, seen, expected):
    """compares two lists, and names the first piece that differs"""
    if seen == expected:
        return
    place = next((i for i, pair in enumerate(zip(seen, expected)) if pair[0] != pair[1]), min(len(seen), len(expected)))
    pieces = [shown(side[place]) if place < len(side) else "missing" for side in (seen, expected)]
    raise Failure(f"{what}: {len(seen)} came, {len(expected)} are due; number {place + 1} is {pieces[0]}, due is {pieces[1]}")


def records_in(text):
    return [text[i:i + 10] for i in range(0, len(text), 10)]


def lines_in(text):
    return text.splitlines(keepends=True)


class Program:
    """
    What is due from it is a list of answers, one for each line or record of its input: bytes on standard output, or the number of a refusal on
    standard error.
    """

    def __init__(self, unit, pieces_in, command, patience):
        self.unit, self.pieces_in, self.command = unit, pieces_in, command
        self.patience = patience  # seconds until what does not come on an open pipe counts as missing
        self.words = {}  # by the number of the refusal

    def run(self, given):
        """what comes on standard output and standard error"""
        try:
            done = subprocess.run(self.command, input=given, capture_output=True, timeout=PATIENCE, check=False)
        except subprocess.TimeoutExpired:
            raise Failure(f"it does not end within {PATIENCE} s") from None
        self.ended(done.returncode, done.stderr)
        return done.stdout, done.stderr

    @staticmethod
    def ended(status, error):
        """02 gives no status where something was refused; there it is free"""
        if status < 0 or status > 0 and not error:
            raise Failure(f"it ends with status {status}")

    def gives(self, what, given, answers):
        self.compare(what, *self.run(given), answers)

    def compare(self, what, out, error, answers):
        refused = [f"{self.unit} {n}: {answer}" for n, answer in enumerate(answers, 1) if isinstance(answer, int)]
        expect(f"{what}, refusals", self.refusals(error), refused)
        expect(f"{what}, output", self.pieces_in(out), [answer for answer in answers if isinstance(answer, bytes)])

    def refusals(self, error):
        """the fronts of the lines, `line 7: 3`; the words behind them are free, but the same for the same number"""
        fronts = []
        for line in error.decode("latin-1").split("\n")[:-1]:
            refusal = REFUSAL.fullmatch(line)
            if not refusal:
                raise Failure(f"on standard error stands {line!r}")
            front, number, words = refusal.groups()
            expect(f"words of refusal {number}", [words], [self.words.setdefault(number, words)])
            fronts.append(front)
        return fronts


class Programs:
    def __init__(self, importer, exporter, patience=PATIENCE):
        self.importer = Program("line", records_in, importer, patience)
        self.exporter = Program("record", lines_in, exporter, patience)


class Live:
    """A program on pipes that stay open. What comes is kept, and compared as a whole with all that is due so far."""

    def __init__(self, program):
        self.program = program
        self.process = subprocess.Popen(program.command, stdin=subprocess.PIPE, stdout=subprocess.PIPE, stderr=subprocess.PIPE, bufsize=0)
        self.given = self.process.stdin.fileno()
        os.set_blocking(self.given, False)
        self.out, self.error = self.process.stdout.fileno(), self.process.stderr.fileno()
        self.came = {self.out: b"", self.error: b""}
        self.open = list(self.came)

    def __enter__(self):
        return self

    def __exit__(self, *failure):
        self.process.kill()
        self.process.wait()
        for stream in self.process.stdin, self.process.stdout, self.process.stderr:
            stream.close()

    def exchange(self, given, enough):
        """passes on what is given and takes what comes, until it is enough or nothing has moved for too long"""
        given = memoryview(given)
        while given or self.open and not enough():
            readable, writable, _ = select.select(self.open, [self.given] if given else [], [], self.program.patience)
            if not readable and not writable:
                return
            if writable:
                given = given[self.put(given[:PIPE_MOST]):]
            for stream in readable:
                piece = os.read(stream, PIPE_MOST)
                self.came[stream] += piece
                if not piece:
                    self.open.remove(stream)

    def put(self, piece):
        try:
            return os.write(self.given, piece)
        except BrokenPipeError:
            raise Failure(f"it does not read on, and says {self.came[self.error][-300:]!r}") from None

    def compare(self, what, answers):
        self.program.compare(what, self.came[self.out], self.came[self.error], answers)

    def answers(self, what, given, answers):
        """sends what is given and waits for all that is then due, while the pipe stays open"""
        length = sum(len(answer) for answer in answers if isinstance(answer, bytes))
        refused = sum(isinstance(answer, int) for answer in answers)
        self.exchange(given, lambda: len(self.came[self.out]) >= length and self.came[self.error].count(b"\n") >= refused)
        self.compare(what, answers)

    def send(self, given):
        """sends a piece that the program reads by itself: nothing more is sent before all of it has left the pipe"""
        self.exchange(given, lambda: True)
        limit = time.monotonic() + self.program.patience
        while struct.unpack("i", fcntl.ioctl(self.given, termios.FIONREAD, bytes(4)))[0]:
            if time.monotonic() > limit:
                raise Failure("a piece of input is not read")
            time.sleep(0.0001)

    def ends(self, what, answers):
        """ends the input, and sees that nothing comes but what is due"""
        self.process.stdin.close()
        self.exchange(b"", lambda: False)
        try:
            self.program.ended(self.process.wait(self.program.patience), self.came[self.error])
        except subprocess.TimeoutExpired:
            raise Failure(f"{what}: it does not end") from None
        self.compare(what, answers)
