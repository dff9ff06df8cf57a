"""What import and export make of logs and records: those of other tools, those of 000, odd ones and random ones."""
import random
import subprocess

import reference
import tools
from frames import all_fronts, cleared, damaged, frames_of_all_kinds, legal_line, record_of
from programs import PATIENCE, Failure, expect, records_in

HERE = "tests/candump"
BIG = 200000  # lines or records
LINE, RECORD = b"(0.000000) can0 04C#030A2C01", bytes.fromhex("0984030A2C0100000000")  # P1 of 01

# 000, section 5, in the paper's order; with * as docs/DECISIONS.md takes those that contradict themselves
EXAMPLES = """
    5.1.1    99 00
    5.1.2    19 40
    5.1.3    24 A0
    5.1.4    A4 E0
    5.2.1.1  10 A2 00 08
    5.2.1.2  90 A3 40 08 03
    5.2.2.1  4C 83 03 0C 0F
    5.2.2.2  CC 82 43 0C
    5.2.3.1  86 22 00 3D
    5.2.3.2  BD 22 40 06
    5.2.4.1  11 03 16 38 55
    5.2.4.2* AE 04 01 93 76 01
    5.2.4.3* 96 03 50 93 76
    5.3.1.1  20 A2 00 38
    5.3.1.2  A0 A8 60 38 00 0B 47 41 54 45
    5.3.1.3  A0 A8 60 38 01 0B 20 53 45 4E
    5.3.1.4  A0 A7 60 38 02 0B 53 4F 52
    5.3.2.1* 20 88 20 38 00 0B 53 44 53 20
    5.3.2.2* 20 88 20 38 01 0B 20 53 45 4E
    5.3.2.3* 20 87 20 38 02 0B 53 4F 52
    5.3.2.4  A0 82 40 38
"""
EXAMPLE_RECORDS = [bytes.fromhex(row.split(maxsplit=1)[1]).ljust(10, b"\0") for row in EXAMPLES.strip().split("\n")]


def content(path):
    with open(path, "rb") as file:
        return file.read()


def joined(pieces):
    return b"".join(pieces)


def some_frames():
    return frames_of_all_kinds(random.Random(1))


# Logs of other tools, imported

def logs_of_candump(programs):
    frames = some_frames()
    arrivals = [("can0", 1713859200 + n, n, tools.can_frame(frame)) for n, frame in enumerate(frames)]
    programs.importer.gives("a log of candump", tools.candump(arrivals, "can0"), [record_of(frame) for frame in frames])


def due_to(line, record):
    """what import gives for a line that a tool wrote of a frame with this record: two spaces before the interface and a direction are refused"""
    return 2 if b")  " in line else 4 if line.endswith((b" R", b" T")) else record


def as_it_is_and_tidied(programs, what, log, frames):
    records = [record_of(frame) for frame in frames]
    programs.importer.gives(f"{what}, as it is", log, [due_to(line, record) for line, record in zip(log.splitlines(), records)])
    programs.importer.gives(f"{what}, tidied", tools.tidied(log), records)


def what_candump_writes_besides(programs):
    """frames that have no record; names that are filled up to the longest seen so far, where there are several; directions"""
    frame = some_frames()[99]
    data, fd = tools.can_frame(frame), tools.CANFD_FRAME.pack(0x4C, 12, 1, b"abcdefghijkl")
    extended, error = tools.CAN_FRAME.pack(tools.EXTENDED | 0x4C, 2, b"ab"), tools.CAN_FRAME.pack(tools.ERROR | 0x80, 8, b"")
    kinds = tools.candump([("can0", 5, 13, kind) for kind in (data, fd, extended, error)], "any")
    programs.importer.gives("kinds of frames", kinds, [record_of(frame), 4, 3, 3])
    names = tools.candump([(name, 5, 13, data) for name in ("can0", "vcan0", "can0")], "any")
    as_it_is_and_tidied(programs, "names of unequal length", names, [frame] * 3)
    as_it_is_and_tidied(programs, "candump -x", tools.candump([("can0", 5, 13, data)], "-x", "any"), [frame])


def logs_of_asc2log(programs):
    frames = some_frames()
    as_it_is_and_tidied(programs, "a log of asc2log", tools.asc2log(tools.asc_of(frames)), frames)


def logs_of_python_can(programs):
    """remote frames have length 0 here: python-can does not write another"""
    frames = [frame._replace(length=0) if frame.remote else frame for frame in some_frames()]
    as_it_is_and_tidied(programs, "a log of python-can", tools.python_can_writes(frames), frames)


def python_can_reads_alike(programs):
    """lines that 02 allows and no tool writes, read by import and by python-can"""
    chance = random.Random(2)
    log = joined(legal_line(chance) + b"\n" for _ in range(5000))
    programs.importer.gives("odd lines that are legal", log, [record_of(frame) for frame in tools.python_can_reads(log)])


# Exports read by other tools

def tools_read_exports(programs):
    frames = some_frames()
    log, _ = programs.exporter.run(joined(map(record_of, frames)))
    expect("what python-can reads", tools.python_can_reads(log), frames)
    expect("what canplayer sends", tools.canplayer_reads(log), frames)
    asc = tools.log2asc(log)
    expect("what python-can reads of log2asc's", tools.asc_read(asc), frames)
    again, _ = programs.importer.run(tools.tidied(tools.asc2log(asc)))
    expect("records by way of log2asc and asc2log", records_in(again), [record_of(frame) for frame in frames])


# There and back

def every_front(programs):
    """each value of a record's first two bytes, a DLC over 8 among them, and a rest of each length"""
    records = all_fronts(random.Random(3))
    lines = [reference.export_record(record) for record in records]
    taken = [cleared(record) for record in records if record[1] & 15 <= 8]
    log = joined(line for line in lines if isinstance(line, bytes))
    programs.exporter.gives("every front exported", joined(records), lines)
    programs.importer.gives("every front and back", log, taken)
    programs.exporter.gives("every front, there again", joined(taken), [line for line in lines if isinstance(line, bytes)])
    for length in range(10):
        programs.exporter.gives(f"a rest of {length} bytes", records[0] + records[1][:length], [lines[0]] + [1] * (length > 0))
    programs.exporter.gives("no records", b"", [])


def legal_there_and_back(programs):
    """good lines of any form, exported and imported again, give the same records"""
    chance = random.Random(4)
    records, _ = programs.importer.run(joined(legal_line(chance) + b"\n" for _ in range(5000)))
    log, _ = programs.exporter.run(records)
    again, _ = programs.importer.run(log)
    expect("good lines by way of export", records_in(again), records_in(records))
    expect("how many", [len(records)], [50000])


# Line by line

def oddities_due():
    due = []
    for row in content(f"{HERE}/oddities.txt").decode().split("\n"):
        if row and not row.startswith("#"):
            number, answer, _ = (cell.strip() for cell in row.split("|", maxsplit=2))
            due.append(int(answer) if len(answer) == 1 else bytes.fromhex(answer).ljust(10, b"\0"))
            expect("numbers in oddities.txt", [int(number)], [len(due)])
    return due


def oddities(programs):
    programs.importer.gives("oddities.log", content(f"{HERE}/oddities.log"), oddities_due())


def line_ends(programs):
    for what, log, answers in (
            ("no input", b"", []),
            ("a line with its end", LINE + b"\n", [RECORD]),
            ("a line without it", LINE, [RECORD]),
            ("an empty line", b"\n", [2]),
            ("two", b"\n\n", [2, 2]),
            ("an empty line behind a line", LINE + b"\n\n", [RECORD, 2]),
            ("and one before it", b"\n" + LINE, [2, RECORD]),
            ("half a line at the end", LINE + b"\n" + LINE[:12], [RECORD, 3]),
            ("a byte 0", LINE + b"\0\n" + LINE, [4, RECORD]),
            ("a CR alone, which ends nothing", LINE + b"\r" + LINE, [4])):
        programs.importer.gives(what, log, answers)


def line_lengths(programs):
    """lines of many lengths, those around a block among them, each before a good one; long ones of which the front is a good line"""
    lengths = (*range(300), *range(4000, 4200), *range(8180, 8200), *range(65500, 65600))
    programs.importer.gives("lengths", joined(b"x" * length + b"\n" + LINE + b"\n" for length in lengths),
                            [answer for length in lengths for answer in (1 if length > 128 else 2, RECORD)])
    for more in 256, 65536, 5000000:
        programs.importer.gives(f"{more} bytes more", LINE + b"\n" + LINE + b"0" * more + b"\n\n" + LINE, [RECORD, 1, 2, RECORD])
        programs.importer.gives(f"{more} bytes more and no end", LINE + b"\n" + LINE + b"0" * more, [RECORD, 1])


# Many

def every_byte_everywhere(programs):
    """each byte but a line's end in each place of two good lines, in place of what stands there and before it"""
    lines = [line[:place] + bytes([byte]) + line[rest:] for line in (LINE, b"(1.234567) a 7fE#R8") for place in range(len(line))
             for rest in (place, place + 1) for byte in range(256) if byte != 10]
    programs.importer.gives("every byte everywhere", joined(line + b"\n" for line in lines), [reference.import_line(line) for line in lines])


def many_lines(programs):
    """good lines and damaged ones"""
    chance = random.Random(5)
    good = [legal_line(chance) for _ in range(10000)]
    lines = good + [damaged(chance, line) for line in good]
    picked = chance.choices([(line, reference.import_line(line)) for line in lines], k=BIG)
    programs.importer.gives("many lines", joined(line + b"\n" for line, _ in picked), [answer for _, answer in picked])
    for number in range(1, 5):
        if sum(answer == number for _, answer in picked) < BIG // 1000:
            raise Failure(f"too few of the damaged lines are refused with {number}")


def many_records(programs):
    chance = random.Random(6)
    records = [chance.randbytes(10) for _ in range(BIG)]
    given = records + [b"\0\1\2"]
    programs.exporter.gives("many records", joined(given), [reference.export_record(record) for record in given])


def words_differ(programs):
    """the words of different refusals are different, and all refusals have come"""
    for program, most in (programs.importer, 4), (programs.exporter, 2):
        expect("numbers of refusals", sorted(program.words), [str(number) for number in range(1, most + 1)])
        expect("words that differ", [len(set(program.words.values()))], [most])


# Together

def examples(programs):
    """captures/examples.log: 000's records, in times that rise, written as candump writes them"""
    log = content("captures/examples.log")
    programs.importer.gives("captures/examples.log", log, EXAMPLE_RECORDS)
    times = [line[1:].split(b")")[0].split(b".") for line in log.splitlines()]
    expect("times in it", times, sorted(times))
    arrivals = [("can0", int(seconds), int(micros), tools.can_frame(frame))
                for (seconds, micros), frame in zip(times, tools.python_can_reads(log))]
    expect("the same by candump", tools.candump(arrivals, "can0").splitlines(), log.splitlines())


def lines_of(command, given=None):
    shell = isinstance(command, str)
    return subprocess.run(command, shell=shell, input=given, stdout=subprocess.PIPE, timeout=PATIENCE, check=True).stdout.splitlines()


def together(programs, replay, explain):
    """a log played into the sample device, and told in words"""
    # the sample device has address 9, and no example is sent to it: each is refused with 4
    expect("the examples, replayed", lines_of("tools/run import <captures/examples.log | tools/run replay"), [b"4 0"] * len(EXAMPLE_RECORDS))

    # P3, whose DLC is 9, and the rest at the end have no line; the device is not altered by either
    sample = records_in(content("captures/sample.sds"))
    passed = [line for line, record in zip(lines_of(replay, joined(sample)), sample) if not isinstance(reference.export_record(record), int)]
    log, _ = programs.exporter.run(joined(sample))
    expect("the sample by way of a log, replayed", lines_of(replay, programs.importer.run(log)[0]), passed)

    told = lines_of(explain, programs.importer.run(content("captures/examples.log"))[0])
    expect("the examples in words", told, lines_of(explain, joined(EXAMPLE_RECORDS)))
    expect("lines of words", [len(told)], [len(EXAMPLE_RECORDS)])
