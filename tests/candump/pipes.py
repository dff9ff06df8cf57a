"""import and export on pipes: input that comes in pieces and while the pipe stays open, what they hold in memory, and a reader that goes away."""
import contextlib
import os
import time

import logs
from programs import Failure, Live

LINE, RECORD = logs.LINE + b"\n", logs.RECORD
TOO_LONG = bytes.fromhex("0989030A2C0100000000")  # a record whose DLC is 9

# pieces of input and their answers: of each kind one, the shortest line and one that is too long
SOME_LINES = (
    (LINE, RECORD),
    (b"\n", 2),
    (b"(0.000000) can0 7FF#R4\n", bytes.fromhex("FFF40000000000000000")),
    (b"(1713859200.104210) vcan0 123#R\n", bytes.fromhex("24700000000000000000")),
    (b"(0.000000) can0 04C#0\n", 4),
    (b"(0.000000) can0\n", 3),
    (b"x" * 129 + b"\n", 1),
    (LINE, RECORD),
)
SOME_RECORDS = (
    (RECORD, LINE),
    (TOO_LONG, 2),
    (bytes.fromhex("FFF40102030405060708"), b"(0.000000) can0 7FF#R4\n"),
    (bytes.fromhex("2461110A0A0A0A0A0A0A"), b"(0.000000) can0 123#11\n"),
)


def some(programs):
    """each program with a short input and the answers due to it"""
    for program, pieces in (programs.importer, SOME_LINES), (programs.exporter, SOME_RECORDS):
        yield program, b"".join(piece for piece, _ in pieces), [answer for _, answer in pieces]


def singles(programs):
    """each program with a piece of input and its answer"""
    return (programs.importer, LINE, RECORD), (programs.exporter, RECORD, LINE)


def cut_anywhere(programs):
    """the same input over and over on one pipe, each time cut one byte later than the time before; what is sent is read piece by piece"""
    for program, text, answers in some(programs):
        with Live(program) as live:
            for place in range(1, len(text)):
                live.send(text[place - 1:] + text[:place])
            live.answers("cut at each place", text[-1:], answers * len(text))
            live.ends("cut at each place", answers * len(text))


def byte_by_byte(programs):
    for program, text, answers in some(programs):
        with Live(program) as live:
            for byte in text:
                live.send(bytes([byte]))
            live.ends("byte by byte", answers)


def import_answers_while_open(programs):
    with Live(programs.importer) as live:
        live.answers("a line on an open pipe", LINE, [RECORD])
        live.answers("a line that is refused", b"nothing\n", [RECORD, 2])
        live.answers("a line and the front of the next", LINE + LINE[:21], [RECORD, 2, RECORD])
        live.answers("the rest of it, and two more", LINE[21:] + LINE + b"\n", [RECORD, 2, RECORD, RECORD, RECORD, 2])
        live.answers("a last line", LINE[:-1], [RECORD, 2, RECORD, RECORD, RECORD, 2])
        live.ends("which has no end", [RECORD, 2, RECORD, RECORD, RECORD, 2, RECORD])


def export_answers_while_open(programs):
    with Live(programs.exporter) as live:
        live.answers("a record on an open pipe", RECORD, [LINE])
        live.answers("a record that is refused", TOO_LONG, [LINE, 2])
        live.answers("a record and the front of the next", RECORD + RECORD[:4], [LINE, 2, LINE])
        live.answers("the rest of it, and one more", RECORD[4:] + RECORD, [LINE, 2, LINE, LINE, LINE])
        live.answers("a rest", RECORD[:9], [LINE, 2, LINE, LINE, LINE])
        live.ends("a rest at the end", [LINE, 2, LINE, LINE, LINE, 1])


def peak_of(live):
    """bytes of memory that the process has had at most since it was started"""
    with open(f"/proc/{live.process.pid}/status", encoding="ascii") as status:
        return next(int(line.split()[1]) * 1024 for line in status if line.startswith("VmHWM:"))


def memory_stays(programs):
    """a line of 50 MB: the process must not have grown by a tenth of it."""
    length = 50000000
    program, text, answers = next(some(programs))
    with Live(program) as live:
        live.answers("some lines", text, answers)
        before = peak_of(live)
        live.answers("a line of 50 MB, and some more", b"x" * length + b"\n" + text, [*answers, 1, *answers])
        grown = peak_of(live) - before
        live.ends("50 MB", [*answers, 1, *answers])
    if grown > length // 10:
        raise Failure(f"a line of {length} bytes takes {grown} bytes of memory")


def calls_of(live):
    """how often the process has asked the kernel to read or write"""
    with open(f"/proc/{live.process.pid}/io", encoding="ascii") as counts:
        return sum(int(line.split()[1]) for line in counts if line.startswith(("syscr:", "syscw:")))


def works_on_blocks(programs):
    """many lines or records are read and written by far fewer calls; not every kernel counts them"""
    count = 20000
    for program, given, answer in singles(programs) if os.path.exists("/proc/self/io") else ():
        with Live(program) as live:
            live.answers("before", given, [answer])
            before = calls_of(live)
            live.answers("many", given * count, [answer] * (count + 1))
            calls = calls_of(live) - before
        if calls > count // 2:
            raise Failure(f"{count} times a {program.unit} takes {calls} reads and writes")


def reader_goes_away(programs):
    """a program whose output nobody reads any more ends, though its input goes on"""
    for program, given, answer in singles(programs):
        with Live(program) as live:
            live.answers("before", given, [answer])
            live.process.stdout.close()
            limit = time.monotonic() + program.patience
            while live.process.poll() is None:
                if time.monotonic() > limit:
                    raise Failure("it goes on though its reader has gone")
                with contextlib.suppress(OSError):
                    os.write(live.given, given)
                time.sleep(0.01)
