"""
collect beside real gateways: what it prints is what their stores hold, however their answers are mixed and whatever happens to a fragment on the way. Then
its links, signals, errors and words. 01 is the scope page, 02 the requests for changes, 000 the application layer specification.
"""
import collections
import errno
import itertools
import os
import random
import shutil
import signal
import socket
import subprocess
import sys
import tempfile
import threading
import time

from guests import (GATE, MISSING, PLACES, Guest, Outcome, Value, answer_frames, cleared, fragmented, line_of, mixed, outcome, value_of, whole_of)
from link import (ACTION, CAN_FRAME, CHANGE_ON, ERROR, ERROR_FLAG, EVENT, EXTENDED, LIMIT, NO_LINK, READ, SUCCESSFUL, WRITE_ON_ACK, Failure,
                  Host, Peer, Program, expect, frame_of, read_line, record)

HERE = os.path.dirname(os.path.abspath(__file__))
SCRATCH = tempfile.mkdtemp(prefix="sds-collect-")
COLLECT = "target/hosts/collect"
ADDRESSES = 0, 5, 32, 64, 125  # the first and the last record of the work area among them
WAIT = 3
ASKED = 20  # times, while frames keep coming
EYE = Host(32)  # the guest of 000, 5.3.1
GATE_FRAMES, GATE_VALUE = EYE.value(0, 56, GATE), Value(32, 0, 56, GATE)


class Collect(Program):
    """on a socket pair, or on the link that it is given"""

    name = "collect"

    def __init__(self, *options, **how):
        super().__init__([COLLECT, *options], **how)

    def send(self, *records):
        self.peer.send(*records)

    def close(self):
        self.peer.close()

    def prints(self, expected):
        """the next line"""
        expect("the next line", read_line(self.process.stdout).decode(), expected + "\n")

    def tally(self, expected):
        """asks for the tally, which is the next line"""
        self.process.send_signal(signal.SIGUSR1)
        self.prints(expected)

    def lines(self):
        """until it closes its output"""
        return [line.decode().rstrip("\n") for line in iter(lambda: read_line(self.process.stdout), b"")]


class Input(Collect):
    """on standard input"""

    def __init__(self, *options, **how):
        super().__init__(*options, link=NO_LINK, stdin=subprocess.PIPE, **how)

    def send(self, *records):
        self.process.stdin.write(b"".join(records))

    def close(self):
        self.process.stdin.close()

    def hang_up(self):
        return self.ends(0, "")[0]  # which closes its input

    def stop(self, number=signal.SIGTERM):
        self.process.send_signal(number)
        self.process.wait(LIMIT)
        return self.ends(0)


def read_records(content, *options, status=0, message=""):
    """what is printed of bytes on standard input, as lines"""
    collect = Input(*options)
    try:
        out, error = collect.process.communicate(content, timeout=LIMIT)
    except subprocess.TimeoutExpired:
        raise Failure("collect does not end") from None
    expect(f"exit status and message of {len(content)} bytes", (collect.process.returncode, error.decode()), (status, message))
    return out.decode().splitlines()


def sent_beside(collect, sending):
    """what is printed while something is sent and until the end, as lines"""
    sender = threading.Thread(target=sending, daemon=True)
    sender.start()
    lines = collect.lines()
    sender.join(LIMIT)
    expect("exit status", collect.process.wait(LIMIT), 0)
    return lines


def played(records):
    """what is printed of records on standard input, as lines"""
    return read_records(b"".join(records))


def heard(records):
    """what is printed of frames on a link, as lines"""
    collect = Collect()

    def send_all():
        collect.send(*records)
        collect.close()

    return sent_beside(collect, send_all)


# 1: values of gateways

def expect_lines(what, seen, expected):
    """tells where they part"""
    for n, (one, other) in enumerate(itertools.zip_longest(seen, expected)):
        if one != other:
            raise Failure(f"{what}, line {n + 1}\n  expected {other or 'no more lines'}\n  seen     {one or 'no more lines'}")


def values_of_five_gateways(chance):
    """each line when the value's last frame is there, with just the bytes of that gateway's store; at the end the counts of the frames"""
    guests = {address: Guest(address, chance, SCRATCH) for address in ADDRESSES}
    reads = [*PLACES, MISSING, (0, 56), (2, 56)]  # these two once more
    streams = [guest.wire(chance.sample(reads, len(reads))) for guest in guests.values()]
    due = collections.Counter(guest.value(*place) for guest in guests.values() for place in reads if place != MISSING)
    collect, sent = Collect(), Outcome()
    for rec in mixed(chance, streams):
        collect.send(rec)
        complete = sent.hear(rec)
        if complete:
            value = guests[complete.guest].value(complete.object, complete.id)
            collect.prints(line_of(value))
            due.subtract([value])
    expect("values that were printed too seldom or too often", {value: count for value, count in due.items() if count != 0}, {})
    frames = sum(1 + answer_frames(place) for place in reads)
    expect("the tally", collect.hang_up(), f"seen {len(guests) * frames}, finished {len(guests) * (len(reads) - 1)}, dropped 0\n")
    for guest in guests.values():
        guest.gateway.hang_up()


class Recorded:
    """What five gateways answered once: their frames, for mixes and damage, and their values by their stores."""

    def __init__(self, chance, places):
        self.streams, self.values = [], []
        for address in ADDRESSES:
            guest, reads = Guest(address, chance, SCRATCH), places(address)
            self.streams.append(list(guest.wire(chance.sample(reads, len(reads)))))
            self.values += [guest.value(*place) for place in reads if place != MISSING]
            guest.gateway.hang_up()


def check(what, records, right, wholes=(), listen=played):
    """
    Whatever is printed is a right value, each no more often than it was read, or the own data of a frame whose flag was cleared; and then it is just what 02
    says of these frames, with its tally.
    """
    *lines, tally = listen(records)
    printed = collections.Counter(value_of(line) for line in lines)
    wrong = printed - collections.Counter(right) - collections.Counter(wholes)
    if wrong:
        raise Failure(f"{what}: printed, but no guest has it, or too often\n  " + "\n  ".join(line_of(value) for value in wrong))
    result = outcome(records)
    expect_lines(what, lines, result.lines())
    expect(f"the tally, {what}", tally, result.tally())


def mixed_at_random(chance):
    """on a link and on standard input; nothing is lost"""
    recorded = Recorded(chance, lambda _: [*PLACES, MISSING])
    for n in range(10):
        records = list(mixed(chance, recorded.streams))
        expect("all values", sorted(outcome(records).values), sorted(recorded.values))
        check(f"mix {n}", records, recorded.values, listen=heard if n % 2 else played)


def places_for_damage(address):
    """short messages, and of one guest the longest"""
    return [(0, 0), (2, 18), (3, 10), (4, 0), (2, 56), (3, 56), (3, 57)] + ([(31, 255)] if address == 5 else [])


def damaged(chance):
    recorded = Recorded(chance, places_for_damage)
    records = list(mixed(chance, recorded.streams))
    return recorded.values, records, [place for place, rec in enumerate(records) if fragmented(rec)]


def described(rec):
    return f"guest {rec[0] & 127}, object {rec[2] & 31}, attribute {rec[3]}, fragment {rec[4]} of {rec[5]} bytes"


def flag_cleared(chance):
    """of each fragment in turn, and nothing shifted is handed over: that value is missing, the frame's own data is printed, and all other values are"""
    right, records, fragments = damaged(chance)
    for place in fragments:
        rec = records[place]
        own = whole_of(cleared(rec))
        sent = records[:place] + [cleared(rec)] + records[place + 1:]
        left = [value for value in right if value[:3] != own[:3]]
        expect("a message is lost", len(left), len(right) - 1)
        expect("values by 02", sorted(outcome(sent).values), sorted(left + [own]))
        check(f"flag cleared of {described(rec)}", sent, left, [own], listen=heard if place % 16 == 0 else played)


def fragment_lost(chance):
    right, records, fragments = damaged(chance)
    for place in fragments:
        check(f"lost {described(records[place])}", records[:place] + records[place + 1:], right)


def fragment_repeated(chance):
    """at once, and somewhere later"""
    right, records, fragments = damaged(chance)
    for place in fragments:
        for again in place + 1, chance.randrange(place + 1, len(records) + 1):
            check(f"repeated {described(records[place])}", records[:again] + [records[place]] + records[again:], right)


def fragments_exchanged(chance):
    """two of one guest: each with the next one and with one at random, which may be another message's"""
    right, records, fragments = damaged(chance)
    for place in fragments:
        others = [other for other in fragments if other > place and records[other][0] == records[place][0]]
        for other in {*others[:1], *(chance.sample(others, 1) if others else [])}:
            sent = list(records)
            sent[place], sent[other] = records[other], records[place]
            check(f"exchanged {described(records[place])} and {described(records[other])}", sent, right)


def halves_of_two_messages(_):
    """the head of one message and the tail of another from that guest: another ID, object or total, and never one value"""
    one = EYE.value(2, 56, b"head of the one, 32 bytes of it.")
    for other in EYE.value(2, 57, b"tail of another, by its ID      "), EYE.value(3, 56, b"tail of another, by its object  "), \
            EYE.value(2, 56, b"tail of another, by its total  "):
        for cut in range(1, 8):
            lines = played(one[:cut] + other[cut:] + one)
            expect(f"the lines, cut at {cut}", lines, [line_of(Value(32, 2, 56, b"head of the one, 32 bytes of it.")), "seen 16, finished 1, dropped 1"])


def whole_answer_between_fragments(_):
    """it is handed over at once and does not disturb; neither do an Error, a Wait, a request or another guest's fragments; a number 0 begins anew"""
    short, other = EYE.value(0, 8, b"\3"), Host(33).value(0, 56, b"OTHER SENSOR")
    quiet = [EYE.read(0, 56), EYE.refused(READ, 0, 56, 1), EYE.answer(READ, ERROR, 0, 56), EYE.answer(READ, WAIT, 0, 56), EYE.answer(READ, SUCCESSFUL, 0, 56)]
    between = [*short, *quiet, other[0]], [*short, other[1], *quiet], [other[2]]
    lines = heard([rec for fragment, rest in zip(GATE_FRAMES, between) for rec in (fragment, *rest)])
    whole = line_of(Value(32, 0, 8, b"\3"))
    expect("the lines", lines, [whole, whole, line_of(GATE_VALUE), line_of(Value(33, 0, 56, b"OTHER SENSOR")), "seen 18, finished 4, dropped 0"])


def messages_dropped(_):
    """by a number 0, also one that is all of its message, and by what is out of order; by that nothing more where nothing is half joined"""
    first, second, third = GATE_FRAMES
    for records, tally in ([first, first, second, third], "seen 4, finished 1, dropped 1"), ([third], "seen 1, finished 0, dropped 0"), \
            ([first, third, second], "seen 3, finished 0, dropped 1"), ([first, record(0xA0, 0xA5, 0x60, 0x39, 0, 1, 0x55)], "seen 2, finished 1, dropped 1"), \
            ([first, second, second, third], "seen 4, finished 0, dropped 1"), ([first, second], "seen 2, finished 0, dropped 0"):
        for listen in heard, played:
            expect("the tally", listen(records)[-1], tally)


# 2: words

def content(path):
    with open(path, encoding="ascii") as file:
        return file.read()


def records_of(log):
    """of a log of candump"""
    records = []
    for line in content(log).splitlines():
        identifier, data = line.split()[2].split("#")
        records.append(record(int(identifier, 16) >> 3, (int(identifier, 16) & 7) << 5 | len(data) // 2, *bytes.fromhex(data)))
    return records


def example_of_the_specification(_):
    """000, 5.3.1, as the capture has it; and among all its examples"""
    gate = 'guest 32   object 0   attribute 56   11  bytes  data 47 41 54 45 20 53 45 4E 53 4F 52  text "GATE SENSOR"'
    records = records_of("captures/gate_sensor.log")
    expect("the capture", records, [EYE.read(0, 56), *GATE_FRAMES])
    expect("its lines", played(records), [gate, "seen 4, finished 1, dropped 0"])
    state = "guest 16   object 0   attribute 8    1   bytes  data 03"
    expect("lines of all examples", played(records_of("captures/examples.log")), [state, gate, "seen 21, finished 2, dropped 0"])


def texts(_):
    for data, text in [
        (b"GATE", '"GATE"'), (b"GATE \0\0", '"GATE "'), (b'A" \0', '"A\\" "'), (b"\\", '"\\\\"'), (b'\\"\\"', '"\\\\\\"\\\\\\""'), (b" ", '" "'), (b"~", '"~"'),
        (b"\0", None), (b"\0\0\0\0\0\0\0", None), (b"\0A", None), (b"A\0B", None), (b"A\n", None), (b"\x1F", None), (b"\x7F", None), (b"GATE SENS\xD6R", None),
        (b"%s%n%d" * 42 + b"%%%", '"' + "%s%n%d" * 42 + '%%%"'), (b"x" * 254 + b"\0", '"' + "x" * 254 + '"'), (b"\0" * 254 + b"x", None),
    ]:
        line = played(EYE.value(31, 255, data))[0]
        expected = f"guest 32   object 31  attribute 255  {len(data):<3} bytes  data" + "".join(f" {byte:02X}" for byte in data)
        expect("a line", line, expected + (f"  text {text}" if text else ""))
        expect("the same by the rule", line, line_of(Value(32, 31, 255, data)))


def refusals():
    """frames of every refusal but 1, which cannot be"""
    nine = Host(9)
    first, *_ = fragments = nine.value(3, 56, b"SOUTH GATE")
    return [
        record(0x89, 0xB4, 0x43, 10), record(0x89, 0xA9, 0x43, 10), record(0xFE, 0xA4, 0x43, 10), record(0x89, 0xA1, 0x43), record(0x89, 0x22, 0x43, 10),
        record(0x89, 0xA3, 0x63, 56),
        nine.short_answer(CHANGE_ON), nine.short_answer(WRITE_ON_ACK), nine.read(3, 10), nine.wrote(3, 10), nine.answer(ACTION, SUCCESSFUL, 3, 1),
        nine.answer(EVENT, 0, 3, 1), nine.answer(READ, 0, 3, 10), nine.refused(READ, 3, 11, 1), nine.answer(READ, WAIT, 3, 10),
        record(0x09, 0xA4, 0x43, 10, 0x2C, 1), record(0x89, 0x88, 0x63, 56, 0, 10, *b"SOUT"),
        record(0x89, 0xA4, 0x63, 56, 0, 0), record(0x89, 0xA8, 0x63, 56, 9, 0, *b"SOUT"),
        record(0x89, 0xA5, 0x63, 56, 3, 10, 1), record(0x89, 0xA7, 0x63, 56, 0, 10, *b"SOU"), record(0x89, 0xA7, 0x63, 56, 2, 10, *b"TE!"),
        nine.answer(READ, SUCCESSFUL, 3, 56),
        fragments[1], first, fragments[2], fragments[1], first, first, record(0x89, 0xA8, 0x64, 56, 1, 10, *b"H GA"),
    ]


def refusals_in_words(_):
    lines = read_records(b"".join(refusals()), "--trace")
    expect_lines("the trace", lines, content(os.path.join(HERE, "trace.txt")).splitlines())
    expect("without --trace", played(refusals()), lines[-1:])


# 3: signals

def tally_when_asked(_):
    """between two frames, in the middle of a message, and it goes on"""
    state, line = Host(5).value(0, 8, b"\3"), line_of(Value(5, 0, 8, b"\3"))
    for collect in Collect(), Input():
        collect.send(EYE.read(0, 56), *GATE_FRAMES[:1], *state)
        collect.prints(line)
        collect.tally("seen 3, finished 1, dropped 0")
        collect.tally("seen 3, finished 1, dropped 0")
        collect.send(*GATE_FRAMES[1:2], *state)
        collect.prints(line)
        collect.tally("seen 5, finished 2, dropped 0")
        collect.send(*GATE_FRAMES[2:])
        collect.prints(line_of(GATE_VALUE))
        expect("the end", collect.hang_up(), "seen 6, finished 3, dropped 0\n")


def keep_sending(collect, enough):
    """the same value, until it is enough or nobody takes it any more; gives how often that was"""
    for count in itertools.count():
        try:
            if not enough.is_set():
                collect.send(*GATE_FRAMES)
                continue
            collect.close()
        except OSError:
            pass
        return count


def tally_while_frames_keep_coming(_):
    """each time that it is asked for it is printed, once; no frame gets lost"""
    for collect in Collect(), Input():
        enough, sent, lines = threading.Event(), [], []

        def next_line():
            lines.append(read_line(collect.process.stdout).decode().rstrip("\n"))
            return lines[-1]

        sender = threading.Thread(target=lambda: sent.append(keep_sending(collect, enough)), daemon=True)
        sender.start()
        next_line()  # now it takes signals
        for _ in range(ASKED):
            collect.process.send_signal(signal.SIGUSR1)
            limit = time.monotonic() + LIMIT
            while next_line().startswith("guest"):
                expect("a tally in time", time.monotonic() < limit, True)
        enough.set()
        lines += collect.lines()
        sender.join(LIMIT)
        expect("status", collect.process.wait(LIMIT), 0)
        check_tallies(lines, sent[0])


def expect_tally(line, finished):
    """of values that were sent as three frames each, while another one may be under way"""
    allowed = [f"seen {3 * finished + more}, finished {finished}, dropped 0" for more in range(3)]
    if line not in allowed:
        raise Failure(f"a tally behind {finished} values\n  expected {' or '.join(allowed)}\n  seen     {line}")


def check_tallies(lines, sent):
    """of a value that was sent so often, with its tallies; each counts what was printed before it"""
    finished = 0
    for line in lines:
        if line == line_of(GATE_VALUE):
            finished += 1
        else:
            expect_tally(line, finished)
    expect("values", finished, sent)
    expect("tallies", len(lines) - finished, ASKED + 1)
    expect("the last line", lines[-1], f"seen {3 * sent}, finished {sent}, dropped 0")


def stopped(_):
    """with status 0 and the tally, also in the middle of a message and of a record; nothing has been sent"""
    state = Host(5).value(0, 8, b"\3")
    for number in signal.SIGTERM, signal.SIGINT:
        for collect, rest in (Collect(), []), (Input(), [GATE_FRAMES[1][:9]]):
            collect.send(*GATE_FRAMES, GATE_FRAMES[0], *state, *rest)
            collect.prints(line_of(GATE_VALUE))
            collect.prints(line_of(Value(5, 0, 8, b"\3")))
            expect("the end", collect.stop(number), ("seen 5, finished 2, dropped 0\n", ""))
            if collect.peer:
                expect("what it sent", collect.peer.rest(), [])


def stopped_while_frames_keep_coming(_):
    collect = Collect()
    threading.Thread(target=keep_sending, args=(collect, threading.Event()), daemon=True).start()
    first = read_line(collect.process.stdout).decode()
    *lines, tally = [first.rstrip("\n"), *collect.stop()[0].splitlines()]
    expect("the lines", set(lines), {line_of(GATE_VALUE)})
    expect_tally(tally, len(lines))


# 4: records and links

def records_in_pieces(chance):
    """cut anywhere; a value is printed with the last byte of its last record and not before"""
    gate = b"".join(GATE_FRAMES)
    for last in range(1, 10):
        collect = Input("--trace")
        collect.prints("collecting on standard input")  # now it takes signals
        collect.send(gate[:-last])
        wait_for(collect, "seen 2, finished 0, dropped 0")
        collect.send(gate[-last:])
        collect.prints(line_of(GATE_VALUE))
        expect("the end", collect.hang_up(), "seen 3, finished 1, dropped 0\n")
    recorded = Recorded(chance, lambda _: PLACES)
    records = list(mixed(chance, recorded.streams))
    collect = Input()

    def send_pieces():
        rest = b"".join(records)
        while rest:
            size = chance.choice([1, 2, 9, 10, 11, 19, 3999, 4000, 4001, chance.randrange(1, 9000)])
            collect.send(rest[:size])
            rest = rest[size:]
        collect.close()

    result = outcome(records)
    expect_lines("the lines", sent_beside(collect, send_pieces), [*result.lines(), result.tally()])


def wait_for(collect, tally):
    """asks until it is this one; nothing else is printed meanwhile"""
    line, limit = "", time.monotonic() + LIMIT
    while line != tally:
        if time.monotonic() > limit:
            raise Failure(f"no tally in time\n  expected {tally}\n  seen     {line}")
        collect.process.send_signal(signal.SIGUSR1)
        line = read_line(collect.process.stdout).decode().rstrip("\n")
        expect("a tally, and no value", line.split(" ")[0], "seen")


def records_cut_off(_):
    """the tally still comes, and a message; a tenth byte makes it a record"""
    for count in range(4):
        result = outcome(GATE_FRAMES[:count])
        for rest in range(10):
            message = f"collect: standard input ends in the middle of a record, behind {rest} of 10 bytes\n" if rest else ""
            lines = read_records(b"".join(GATE_FRAMES[:count]) + bytes(rest), status=1 if rest else 0, message=message)
            expect("the lines", lines, [*result.lines(), result.tally()])


def connect(path):
    link = socket.socket(socket.AF_UNIX, socket.SOCK_SEQPACKET)
    link.connect(path)
    return Peer(link)


def unix_peers(_):
    """one after another, and a message of which each sends a part"""
    path = os.path.join(SCRATCH, "link")
    collect = Collect("--trace", link=f"unix:{path}")
    collect.prints(f"collecting on unix:{path}")
    first, second = connect(path), connect(path)
    second.send(*GATE_FRAMES[2:], *Host(5).value(0, 8, b"\3"))  # waits for its turn
    first.send(*GATE_FRAMES, *GATE_FRAMES[:2])
    collect.prints(line_of(GATE_VALUE))
    wait_for(collect, "seen 5, finished 1, dropped 0")
    first.close()
    collect.prints(line_of(GATE_VALUE))
    collect.prints(line_of(Value(5, 0, 8, b"\3")))
    Collect(link=f"unix:{path}").ends(2, f"collect: unix:{path}: another program listens there\n")
    second.close()
    collect.tally("seen 7, finished 3, dropped 0")  # it waits for the next one
    expect("the end", collect.stop(), ("seen 7, finished 3, dropped 0\n", ""))
    expect("a socket file", os.path.exists(path), False)


def odd_frames(_):
    """they are skipped and not counted, and what is half joined stays"""
    second = GATE_FRAMES[1]
    identifier = second[0] << 3 | second[1] >> 5
    odd = [frame_of(second, flags) for flags in (EXTENDED, ERROR_FLAG, EXTENDED | ERROR_FLAG)]
    odd += [CAN_FRAME.pack(identifier, length, 0, second[2:]) for length in (16, 255)] + [CAN_FRAME.pack(identifier, 8, 16, second[2:])]
    odd += [frame_of(second)[:size] for size in (0, 1, 15)] + [frame_of(second) + bytes(1)]
    collect = Collect("--trace")
    expect("the first line", read_line(collect.process.stdout).decode().split(":")[0], "collecting on fd")
    collect.send(GATE_FRAMES[0])
    for message in odd:
        collect.peer.link.send(message)
    collect.send(*GATE_FRAMES[1:])
    for fault in ["an extended frame", *["an error frame"] * 2, *["a frame with a length over 15"] * 3, *["a message of another size than a frame"] * 4]:
        collect.prints(f"skipped: {fault}")
    collect.prints(line_of(GATE_VALUE))
    expect("the end", collect.hang_up(), "seen 3, finished 1, dropped 0\n")


# 5: errors

def wrong_arguments(_):
    path = os.path.join(SCRATCH, "file")
    with open(path, "wb") as file:
        file.write(b"mine")
    for words, message in [
        (["--loud"], "unrecognized option '--loud'"), (["-t"], "invalid option -- 't'"), (["--trace=1"], "option '--trace' doesn't allow an argument"),
        (["fd:0", "fd:1"], "one link at most is taken; --help tells more"), (["tcp:1"], "tcp:1: a link is can:IFACE, unix:PATH or fd:N"),
        ([""], ": a link is can:IFACE, unix:PATH or fd:N"), (["captures/sample.sds"], "captures/sample.sds: a link is can:IFACE, unix:PATH or fd:N"),
        (["can:nosuch0"], f"can:nosuch0: {os.strerror(errno.ENODEV)}"), (["--trace", "can:nosuch0"], f"can:nosuch0: {os.strerror(errno.ENODEV)}"),
        (["unix:"], "unix:: the path has not 1 to 107 bytes"), ([f"unix:{path}"], f"unix:{path}: there is a file that is no socket"),
        *[([f"fd:{number}"], f"fd:{number}: no open SOCK_SEQPACKET socket") for number in ("0", "77", "x", "")],
    ]:
        expect(f"lines of {words}", Collect(*words, link=NO_LINK).ends(2, f"collect: {message}\n")[0], "")
    stream = Collect(kind=socket.SOCK_STREAM)
    expect("message", stream.ends(2)[1].split(": ", 2)[2], "no open SOCK_SEQPACKET socket\n")
    folder = os.open("captures", os.O_RDONLY)
    expect("lines of a folder", Collect(link=NO_LINK, stdin=folder).ends(2, f"collect: standard input: {os.strerror(errno.EISDIR)}\n")[0], "")
    os.close(folder)


def help_and_nothing(_):
    out = Collect("--help", link=NO_LINK).ends(0, "")[0]
    expect("help", (out[:15], max(map(len, out.splitlines())) <= 80), ("usage: collect ", True))
    for line in line_of(Value(9, 3, 56, b'A" \0')), "seen 4, finished 1, dropped 0":
        expect(f"a line of the help, {line}", f"  {line}" in out.splitlines(), True)
    expect("lines of no records", read_records(b""), ["seen 0, finished 0, dropped 0"])
    expect("lines of no frames", heard([]), ["seen 0, finished 0, dropped 0"])


def output_that_fails(_):
    """a line that cannot be printed ends it, be it a value, a tally, a trace or the help"""
    full = f"collect: standard output: {os.strerror(errno.ENOSPC)}\n"
    with open("/dev/full", "wb") as device:
        for options, records in ([], GATE_FRAMES), ([], []), (["--trace"], []), (["--help"], []):
            collect = Input(*options, stdout=device)
            _, error = collect.process.communicate(b"".join(records), timeout=LIMIT)
            expect(f"status and message of {options}", (collect.process.returncode, error.decode()), (1, full))
    collect = Collect()
    collect.send(*GATE_FRAMES)
    collect.prints(line_of(GATE_VALUE))
    collect.process.stdout.close()
    collect.send(*GATE_FRAMES)
    expect("status", collect.process.wait(LIMIT), 1)
    expect("message", collect.process.stderr.read().decode(), f"collect: standard output: {os.strerror(errno.EPIPE)}\n")


def closed_descriptors(_):
    """a link does not become standard output"""
    path = os.path.join(SCRATCH, "link")
    for closing, words, status, name in (">&-", [f"unix:{path}"], 1, "output"), (">&-", [], 1, "output"), ("<&-", [], 2, "input"):
        started = ["sh", "-c", f'exec "$@" {closing}', "sh", COLLECT, *words]
        done = subprocess.run(started, stdin=subprocess.DEVNULL, capture_output=True, timeout=LIMIT)
        expect(f"status, output and message with {closing}", (done.returncode, done.stdout, done.stderr.decode()),
               (status, b"", f"collect: standard {name}: {os.strerror(errno.EBADF)}\n"))


def main():
    seed = random.randrange(1 << 32)
    by_chance = values_of_five_gateways, mixed_at_random, flag_cleared, fragment_lost, fragment_repeated, fragments_exchanged, records_in_pieces
    for test in [values_of_five_gateways, mixed_at_random, flag_cleared, fragment_lost, fragment_repeated, fragments_exchanged, halves_of_two_messages,
                 whole_answer_between_fragments, messages_dropped,
                 example_of_the_specification, texts, refusals_in_words,
                 tally_when_asked, tally_while_frames_keep_coming, stopped, stopped_while_frames_keep_coming,
                 records_in_pieces, records_cut_off, unix_peers, odd_frames,
                 wrong_arguments, help_and_nothing, output_that_fails, closed_descriptors]:
        name = test.__name__.replace("_", " ") + (f" (seed {seed})" if test in by_chance else "")
        try:
            test(random.Random(seed))
        except (Failure, OSError, subprocess.SubprocessError) as failure:
            print(f"{name} FAILED: {failure}", file=sys.stderr)
            return 1
        print(f"{name} ok", flush=True)
    return 0


if __name__ == "__main__":
    try:
        sys.exit(main())
    finally:
        for program in Program.started:
            program.process.kill()  # does nothing to one that has ended
        shutil.rmtree(SCRATCH)
