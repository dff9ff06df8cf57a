"""
Conversations with the gateway, and explain's words for them. 01 is the scope page, 02 the requests for changes, 000 the application layer
specification.
"""
import errno
import itertools
import os
import random
import re
import shutil
import signal
import socket
import struct
import subprocess
import sys
import tempfile
import threading
import time

from link import (ACTION, CAN_FRAME, CHANGE_OFF, CHANGE_ON, CHANGE_ON_ACK, ERROR, ERROR_FLAG, EVENT, EXPLAIN, EXTENDED, GATEWAY, LIMIT,
                  READ, WATCHED, WRITE, WRITE_OFF, WRITE_OFF_ACK, WRITE_ON, WRITE_ON_ACK, Failure, Gateway, Host, Peer, expect, frame_of, read_line,
                  record)

HERE = os.path.dirname(os.path.abspath(__file__))
SCRATCH = tempfile.mkdtemp(prefix="sds-gateway-")


def content(path):
    with open(path, "rb") as file:
        return file.read()


SAMPLE = content("captures/sample.table")  # 01, "Sample device"
NORTH, SOUTH = b"North conveyor, gate, sensor no1", b"South conveyor, gate, sensor no2"
NINE = Host(9)
EYE = Host(36)  # a photo-eye at the address of 000, 5.1.3
ON, OFF = (EYE.short(WRITE_ON), [EYE.short_answer(WRITE_ON_ACK)]), (EYE.short(WRITE_OFF), [EYE.short_answer(WRITE_OFF_ACK)])


class Device:
    """A table file and a store file in a folder of their own."""

    def __init__(self, table=SAMPLE, store=bytes(67), address=9):
        self.address = address
        self.folder = tempfile.mkdtemp(dir=SCRATCH)
        self.table, self.store = (os.path.join(self.folder, name) for name in ("table", "store"))
        self.put(self.table, table)
        if store is not None:
            self.put(self.store, store)

    @staticmethod
    def put(path, content):
        with open(path, "wb") as file:
            file.write(content)

    def options(self):
        return ["--address", str(self.address), "--table", self.table, "--store", self.store]

    def stored(self):
        return content(self.store)


def photo_eye():
    """object 0: a plain byte at 0 of the store, the point (ID 18) at 1, a name of 11 bytes (ID 56) behind it"""
    return Device(content("captures/photo_eye.table"), bytes(13), EYE.address)


def reads_back(device, store=None):
    """a new gateway on a device's files reads out what the store is to hold; all its attributes may be read"""
    gateway, host, store = Gateway(device), Host(device.address), device.stored() if store is None else store
    for obj, attribute, length, offset in struct.iter_unpack("<BBxBH2x", content(device.table)):
        gateway.peer.converse((host.read(obj, attribute), host.value(obj, attribute, store[offset:offset + length])))
    gateway.hang_up()


# the codes of an Error frame (02, 2026-06): 000's, figure 3.48, and one of our own
NO_PARAMETERS, READ_ONLY, BAD_DLC, OUT_OF_ORDER = 1, 2, 9, 14


def error(service, obj, attribute, code):
    return NINE.refused(service, obj, attribute, code)


# 1: the sample device

def rename_both(peer):
    """both tags by turns; half way both still read as zeros, afterwards as they were written"""
    for n, (north, south) in enumerate(zip(NINE.fragments(2, 56, NORTH), NINE.fragments(3, 56, SOUTH))):
        last = n == 7
        peer.converse((north, [NINE.wrote(2, 56)] if last else []), (south, [NINE.wrote(3, 56)] if last else []))
        if n == 3:
            peer.converse((NINE.read(2, 56), NINE.value(2, 56, bytes(32))), (NINE.read(3, 56), NINE.value(3, 56, bytes(32))))
    for obj, name in (2, NORTH), (3, SOUTH):
        peer.send(NINE.read(obj, 56))
        frames = [peer.receive() for _ in range(8)]
        expect("frames of a name", frames, NINE.value(obj, 56, name))
        expect("the name", b"".join(frame[6:] for frame in frames), name)


def two_tags_by_turns():
    device = Device()
    gateway = Gateway(device)
    rename_both(gateway.peer)
    gateway.hang_up()
    expect("the store", device.stored(), b"\0" + NORTH + b"\0\0" + SOUTH)


# 2: the papers' cases

def cases_of_the_scope_page():
    tag = NINE.fragments(2, 56, NORTH)
    cases = [  # the record, the number of its reply, and the frames that answer it
        ("P1", NINE.write(3, 10, b"\x2C\x01"), 0, [record(0x89, 0x82, 0x43, 0x0A)]),
        ("P2", NINE.write(3, 10, b"\x2C"), 11, [record(0x89, 0x83, 0x83, 0x0A, 0x09)]),
        ("P3", record(9, 0x89, 3, 10, 0x2C, 1), 3, []),
        ("P4, address 10", Host(10).write(3, 10, b"\x2C\x01"), 4, []),
        ("P4, address 126", Host(126).write(3, 10, b"\x2C\x01"), 3, []),
        ("sent by a guest", NINE.answer(WRITE, 0, 3, 10), 4, []),
        ("P5, DLC 0", record(9, 0x80), 5, []),
        ("P5, DLC 1", record(9, 0x81), 5, []),
        ("P6", NINE.write(2, 18, b"\1"), 10, [record(0x89, 0x83, 0x82, 0x12, 0x02)]),
        ("P7", NINE.write(2, 19, b"\1"), 9, [record(0x89, 0x83, 0x82, 0x13, 0x01)]),
        ("P8, number 0", tag[0], 0, []),
        ("P8, number 2", tag[2], 14, [record(0x89, 0x83, 0x82, 0x38, 0x0E)]),
        ("P8, dropped", tag[1], 14, [record(0x89, 0x83, 0x82, 0x38, 0x0E)]),
        ("P9", record(9, 0x87, 0x22, 56, 7, 32, *b"ABC"), 12, [record(0x89, 0x83, 0x82, 0x38, 0x09)]),
        ("P10", record(9, 0x88, 0x22, 56, 8, 32, *b"ABCD"), 12, [record(0x89, 0x83, 0x82, 0x38, 0x09)]),
        ("P11", record(9, 0x88, 0x22, 56, 0, 31, *b"ABCD"), 11, [record(0x89, 0x83, 0x82, 0x38, 0x09)]),
    ]
    device = Device()
    gateway = Gateway(device, "--trace")
    gateway.peer.converse(*[(rec, answers) for _, rec, _, answers in cases])
    replies = [line.split(":")[0].split(",")[0] for line in gateway.hang_up().splitlines() if line.startswith("  ")]
    expect("the replies", replies, [f"  refused {number}" if number else "  served" for _, _, number, _ in cases])
    expect("the store", device.stored(), bytes(33) + b"\x2C\x01" + bytes(32))


def bits(text):
    """a frame as 000 prints it: Dir/Pri, address, service, RTR, DLC, R/R and FI, EOID, and then bytes"""
    digits = text.replace(" ", "")
    return int(digits, 2).to_bytes(len(digits) // 8, "big").ljust(10, b"\0")


def examples_of_the_specification():
    for address, table, before, after, turns in [
        (36, "0012070100000081", b"\x00", b"\x01", [  # 5.1.3 and 5.1.4
            (bits("0 0100100 101 0 0000"), [bits("1 0100100 111 0 0000")])]),
        (16, "0008010100000000", b"\x03", b"\x03", [  # 5.2.1
            (bits("0 0010000 101 0 0010 000 00000 00001000"), [bits("1 0010000 101 0 0011 010 00000 00001000 00000011")])]),
        (76, "030C030100000000", b"\x00", b"\x0F", [  # 5.2.2
            (bits("0 1001100 100 0 0011 000 00011 00001100 00001111"), [bits("1 1001100 100 0 0010 010 00011 00001100")])]),
        (32, "0038030B00000000", b"GATE SENSOR", b"GATE SENSOR", [  # 5.3.1
            (bits("0 0100000 101 0 0010 000 00000 00111000"), [
                bits("1 0100000 101 0 1000 011 00000 00111000 00000000 00001011 01000111 01000001 01010100 01000101"),
                bits("1 0100000 101 0 1000 011 00000 00111000 00000001 00001011 00100000 01010011 01000101 01001110"),
                bits("1 0100000 101 0 0111 011 00000 00111000 00000010 00001011 01010011 01001111 01010010")])]),
        # 5.3.2; the requests as described, their rows of bits have Dir/Pri 1 and in the third a wrong number (docs/DECISIONS.md)
        (32, "0038030B00000000", b"GATE SENSOR", b"SDS  SENSOR", [
            (bits("0 0100000 100 0 1000 001 00000 00111000 00000000 00001011 01010011 01000100 01010011 00100000"), []),
            (bits("0 0100000 100 0 1000 001 00000 00111000 00000001 00001011 00100000 01010011 01000101 01001110"), []),
            (bits("0 0100000 100 0 0111 001 00000 00111000 00000010 00001011 01010011 01001111 01010010"), [
                bits("1 0100000 100 0 0010 010 00000 00111000")])]),
    ]:
        device = Device(bytes.fromhex(table), before, address)
        gateway = Gateway(device)
        gateway.peer.converse(*turns)
        gateway.hang_up()
        expect("the store", device.stored(), after)


def a_block_of_24_points():
    """02, 2026-04: three bytes on the link and in a new store, and a name right behind them; a Write of the four that it took before is refused"""
    device = Device(bytes.fromhex("0112070300001701" "0138030803000000"), None)
    gateway = Gateway(device, "--new-store")
    gateway.peer.converse((NINE.read(1, 18), [record(0x89, 0xA5, 0x41, 0x12)]))
    expect("the new store", device.stored(), bytes(11))
    gateway.peer.converse(
        (NINE.write(1, 18, b"\x0F\xF0\x3C"), [record(0x89, 0x82, 0x41, 0x12)]),
        (NINE.write(1, 18, b"\x0F\xF0\x3C\x00"), [record(0x89, 0x83, 0x81, 0x12, 0x09)]),
        (NINE.fragments(1, 56, b"INPUTS A")[0], []), (NINE.fragments(1, 56, b"INPUTS A")[1], [NINE.wrote(1, 56)]),
        (NINE.read(1, 18), [record(0x89, 0xA5, 0x41, 0x12, 0x0F, 0xF0, 0x3C)]))
    gateway.hang_up()
    expect("the store", device.stored(), b"\x0F\xF0\x3CINPUTS A")


# 3: a photo-eye, whose point takes short Writes (02, 2026-01)

def photo_eye_turns():
    """
    A capture's requests, each with its answers and the store when they are due. Between the fragments of a name the point is written ON and OFF, in
    records with garbage in their unused bytes.
    """
    capture, turns = content("captures/photo_eye.sds"), []
    for rec in (capture[i:i + 10] for i in range(0, len(capture), 10)):
        if rec[0] & 128:
            turns[-1][1].append(rec)
        else:
            turns.append((rec, []))
    points = "1100" "01101" "1111" "11111111" "0"  # after each turn: ON and OFF, the name by turns with them, Reads, what has no answer, OFF
    expect("the capture's turns", len(turns), len(points))
    return [(rec, answers, bytes([0, int(point)]) + (b"GATE SENSOR" if n >= 9 else bytes(11)))
            for n, ((rec, answers), point) in enumerate(zip(turns, points))]


def short_writes():
    """the store holds each at the moment of its answer, and a half-built name never"""
    device = photo_eye()
    gateway = Gateway(device)
    for rec, answers, store in photo_eye_turns():
        gateway.peer.converse((rec, answers))
        expect(f"the store after {rec.hex(' ')}", device.stored(), store)
    gateway.hang_up()
    reads_back(device)


def short_writes_with_garbage():
    """of a frame with DLC 0 nothing is looked at that a struct can_frame has behind the length"""
    device, name = photo_eye(), EYE.fragments(0, 56, b"GATE SENSOR")
    gateway = Gateway(device)
    gateway.peer.converse((name[0], []))
    for garbage in b"\xFF" * 11, b"\0\0\x0F" + bytes.fromhex("2038010B58585858"), b"\1\2\x08" + bytes.fromhex("4012010000000000"):
        for (rec, answers), point in (ON, 1), (OFF, 0):
            gateway.peer.link.send(frame_of(rec)[:5] + garbage)
            expect(f"answers to {rec[:2].hex(' ')} and garbage", [gateway.peer.receive()], answers)
            expect("the store", device.stored(), bytes([0, point]) + bytes(11))
    gateway.peer.converse((name[1], []), (name[2], [EYE.wrote(0, 56)]))
    gateway.hang_up()
    expect("the store", device.stored(), b"\0\0GATE SENSOR")


def no_point_to_write():
    """no answer to any short form, and nothing altered, where object 0's first network record takes no state"""
    for table, length in [
        ("", 0),
        (SAMPLE.hex(), 67),  # no object 0
        ("0112070100000081", 1),  # another object's
        ("0012030100000000", 1),  # no network data
        ("0012050100000081", 1),  # may not be written
        ("0012070100000781", 1),  # eight points
        ("0012070200004081", 2),  # one point in a word
        ("0012070100002000", 1),  # an integer
        ("0012070100000781" "0013070101000081", 2),  # only the second one would
    ]:
        device = Device(bytes.fromhex(table), b"\xA5" * length, EYE.address)
        gateway = Gateway(device, "--trace")
        gateway.peer.converse(*[(EYE.short(service), []) for service in range(8)], (EYE.read(9, 9), [EYE.refused(READ, 9, 9, NO_PARAMETERS)]))
        numbers = [line.split(":")[0] for line in gateway.hang_up().splitlines() if line.startswith("  ")]
        expect(f"the replies with table {table}", numbers, ["  refused 5"] * 8 + ["  refused 9"])
        expect("the store", device.stored(), b"\xA5" * length)


# 4: the store survives

def history(rounds):
    """
    Plain and fragmented Writes, two tags by turns: the frames, each with its answers and the store when they are due. Each completed Write
    alters the store, so no two states are the same.
    """
    store, turns = bytearray(67), []

    def turn(rec, *written):
        if written:
            obj, attribute, start, data = written
            store[start:start + len(data)] = data
            turns.append((rec, [NINE.wrote(obj, attribute)], bytes(store)))
        else:
            turns.append((rec, [], bytes(store)))

    for i in range(1, rounds + 1):
        number, north, south = i.to_bytes(2, "little"), b"north %026d" % i, b"south %026d" % i
        turn(NINE.write(3, 10, number), 3, 10, 33, number)
        for n, (one, other) in enumerate(zip(NINE.fragments(2, 56, north), NINE.fragments(3, 56, south))):
            turn(one, *(2, 56, 1, north) if n == 7 else ())
            turn(other, *(3, 56, 35, south) if n == 7 else ())
            if n == 4:
                turn(NINE.write(3, 10, number[::-1]), 3, 10, 33, number[::-1])
    return turns


def killed_after(frames, device, turns):
    store = turns[frames - 1][2] if frames else device.stored()
    os.chmod(device.store, 0o640)
    gateway = Gateway(device)
    gateway.peer.converse(*[(rec, answers) for rec, answers, _ in turns[:frames]])
    gateway.kill()
    expect(f"the store after {frames} frames", device.stored(), store)
    expect("its permission bits", os.stat(device.store).st_mode & 0o777, 0o640)
    reads_back(device, store)


def killed_between_two_frames():
    for new_device, turns in (Device, history(1) + history(2)[18:22]), (photo_eye, photo_eye_turns()):
        for frames in range(len(turns) + 1):
            killed_after(frames, new_device(), turns)


def restarted():
    """what was half built does not survive, and a new file that a crash left does no harm"""
    device = Device()
    tag = NINE.fragments(2, 56, NORTH)
    gateway = Gateway(device)
    gateway.peer.converse(*[(rec, []) for rec in tag[:7]], (NINE.read(3, 10), NINE.value(3, 10, bytes(2))))
    gateway.kill()
    device.put(device.store + ".new", b"left from a crash")
    gateway = Gateway(device)
    gateway.peer.converse((tag[7], [error(WRITE, 2, 56, OUT_OF_ORDER)]), (NINE.write(3, 10, b"\1\2"), [NINE.wrote(3, 10)]))
    gateway.hang_up()
    expect("the store", device.stored(), bytes(33) + b"\1\2" + bytes(32))
    expect("its folder", sorted(os.listdir(device.folder)), ["store", "table"])


def killed_at_random(seed):
    chance, turns = random.Random(seed), history(12)
    states = [bytes(67)] + [store for _, answers, store in turns if answers]
    due = [answer for _, answers, _ in turns for answer in answers]
    for _ in range(30):
        device = Device()
        gateway = Gateway(device)
        gateway.peer.send(*[rec for rec, _, _ in turns])
        seen = [gateway.peer.receive() for _ in range(chance.randrange(len(due)))]
        moment = time.perf_counter() + chance.uniform(0, 0.002)
        while time.perf_counter() < moment:
            pass
        gateway.kill()
        seen += gateway.peer.rest()
        expect("the acknowledgements", seen, due[:len(seen)])
        # only one frame is under way at a time
        stored = device.stored()
        if stored not in states[len(seen):len(seen) + 2]:
            raise Failure(f"after {len(seen)} acknowledged Writes the store is neither theirs nor the next one's: {stored.hex(' ')}")
        reads_back(device)


def saved_before_the_answer():
    """the order of the calls, and that the answer goes out after them and nothing is written where nothing alters"""
    write = NINE.write(3, 10, b"\1\2"), [NINE.wrote(3, 10)]
    loaded, saved = ["fsync file", "fsync folder"], ["fsync file", "rename", "fsync folder"]
    for device, turn, read in (Device(), write, (NINE.read(3, 10), NINE.value(3, 10, b"\1\2"))), \
            (photo_eye(), ON, (EYE.read(0, 18), EYE.value(0, 18, b"\1"))):
        gateway = Gateway(device, program=WATCHED)
        gateway.peer.converse(turn, turn, read)
        gateway.peer.close()
        expect("calls", gateway.ends()[1].splitlines(), [*loaded, *saved, "send", "send", "send"])


def not_saved_not_acknowledged():
    for new_device, write, altered in (Device, NINE.write(3, 10, b"\1\2"), bytes(33) + b"\1\2" + bytes(32)), (photo_eye, ON[0], b"\0\1" + bytes(11)):
        for fail, replaced in ("fsync 5 3 3", False), ("rename 28 1 1", False), ("fsync 5 4 4", True):
            device = new_device()
            gateway = Gateway(device, program=WATCHED, fail=fail)
            gateway.peer.send(write)
            expect("answers", gateway.peer.rest(), [])
            text = gateway.ends(1)[1].splitlines()[-1]
            expect("message", text, f"gateway: {device.store}: not saved: {os.strerror(int(fail.split()[1]))}")
            expect(f"the store ({fail})", device.stored(), altered if replaced else bytes(len(altered)))
    device = Device()
    gateway = Gateway(device)
    gateway.peer.converse((NINE.read(3, 10), NINE.value(3, 10, bytes(2))))
    shutil.rmtree(device.folder)
    gateway.peer.send(NINE.write(3, 10, b"\1\2"))
    expect("answers", gateway.peer.rest(), [])
    gateway.ends(1, f"gateway: {device.store}: not saved: {os.strerror(errno.ENOENT)}\n")


def new_store():
    device = Device(store=None)
    gateway = Gateway(device, "--new-store")
    gateway.peer.converse((NINE.write(3, 10, b"\1\2"), [NINE.wrote(3, 10)]))
    gateway.hang_up()
    expect("the store", device.stored(), bytes(33) + b"\1\2" + bytes(32))
    gateway = Gateway(device, "--new-store")  # one that is there stays
    gateway.hang_up()
    reads_back(device, bytes(33) + b"\1\2" + bytes(32))


def link_to_a_store():
    device = Device()
    real = device.store
    device.store = os.path.join(SCRATCH, "link")
    os.symlink(real, device.store)
    gateway = Gateway(device)
    gateway.peer.converse((NINE.write(3, 10, b"\1\2"), [NINE.wrote(3, 10)]))
    gateway.hang_up()
    expect("a link", os.readlink(device.store), real)
    expect("the store", device.stored(), bytes(33) + b"\1\2" + bytes(32))


# 5: links

def connect(path):
    link = socket.socket(socket.AF_UNIX, socket.SOCK_SEQPACKET)
    link.connect(path)
    return Peer(link)


def unix_peers():
    device = Device()
    path = os.path.join(device.folder, "link")
    gateway = Gateway(device, "--trace", link=f"unix:{path}")
    first, second = connect(path), connect(path)
    tag = NINE.fragments(2, 56, NORTH)
    second.send(*tag[4:])  # waits for its turn
    first.converse(*[(rec, []) for rec in tag[:4]], (NINE.read(2, 56), NINE.value(2, 56, bytes(32))))
    first.close()
    expect("the message that two peers built", second.receive(), NINE.wrote(2, 56))
    second.close()
    gateway.stop()
    expect("a socket file", os.path.exists(path), False)
    expect("the store", device.stored(), b"\0" + NORTH + bytes(34))


def unix_path_taken():
    device = Device()
    path = os.path.join(device.folder, "link")
    link = f"unix:{path}"
    Gateway(device, "--trace", link=link).kill()
    expect("a socket file that a crash left", os.path.exists(path), True)
    gateway = Gateway(device, "--trace", link=link)
    Gateway(device, link=link).ends(2, f"gateway: {link}: another program listens there\n")
    peer = connect(path)
    peer.converse((NINE.read(3, 10), NINE.value(3, 10, bytes(2))))
    gateway.stop(signal.SIGINT)
    peer.close()
    device.put(path, b"mine")
    Gateway(device, link=link).ends(2, f"gateway: {link}: there is a file that is no socket\n")
    expect("a file at the socket's place", open(path, "rb").read(), b"mine")


def peer_that_leaves_early():
    """all that it sent is served, though nobody reads the answers"""
    device = Device()
    gateway = Gateway(device)
    gateway.peer.send(*[NINE.write(3, 10, bytes([0, i])) for i in range(1, 100)])
    gateway.peer.answered()
    gateway.hang_up()
    expect("the store", device.stored(), bytes(34) + b"\x63" + bytes(32))
    gateway = Gateway(device)
    gateway.peer.send(NINE.read(3, 10))
    gateway.peer.answered()
    gateway.hang_up()


def peer_that_reads_late():
    device = Device(store=b"\0" + NORTH + bytes(34))
    gateway = Gateway(device, program=WATCHED)
    gateway.peer.send(*[NINE.read(2, 56)] * 60)
    gateway.line(gateway.process.stderr, b"wait for room\n")
    threading.Thread(target=gateway.process.stderr.read, daemon=True).start()
    expect("480 frames", [gateway.peer.receive() for _ in range(480)], NINE.value(2, 56, NORTH) * 60)
    gateway.peer.close()
    expect("status", gateway.process.wait(LIMIT), 0)


def full_queue():
    """ENOBUFS of a CAN interface: a wait and no spinning; EINTR: at once again"""
    for code, calls in (errno.ENOBUFS, ["send fails", "wait for a moment"] * 2), (errno.EINTR, ["send fails"] * 2):
        gateway = Gateway(Device(), program=WATCHED, fail=f"send {code} 1 2")
        gateway.peer.converse((NINE.read(3, 10), NINE.value(3, 10, bytes(2))))
        gateway.peer.close()
        expect("calls", gateway.ends()[1].splitlines(), ["fsync file", "fsync folder", *calls, "send"])


def broken_link():
    """half a frame taken, and an error that is no full queue: the program stops"""
    for code, message in (0, "the link took 8 of the 16 bytes of a frame"), (errno.ENETDOWN, f"send: {os.strerror(errno.ENETDOWN)}"):
        gateway = Gateway(Device(), program=WATCHED, fail=f"send {code} 1 1")
        gateway.peer.send(NINE.read(3, 10))
        expect("answers", gateway.peer.rest(), [])
        expect("message", gateway.ends(1)[1].splitlines()[-1], f"gateway: {message}")


def stopped_while_frames_keep_coming():
    """the frame under way is finished: what is stored is just what is acknowledged"""
    device = Device()
    gateway = Gateway(device)

    def number(i):
        return (i % 65536).to_bytes(2, "little")

    def keep_sending():
        try:
            for i in itertools.count(1):
                gateway.peer.send(NINE.write(3, 10, number(i)))
        except OSError:
            pass

    threading.Thread(target=keep_sending, daemon=True).start()
    seen = [gateway.peer.receive() for _ in range(20)]
    gateway.process.send_signal(signal.SIGTERM)
    seen += gateway.peer.rest()
    gateway.ends(0, "")
    expect("the acknowledgements", set(seen), {NINE.wrote(3, 10)})
    expect("the store", device.stored(), bytes(33) + number(len(seen)) + bytes(32))


def stopped_while_a_peer_takes_nothing():
    gateway = Gateway(Device(), program=WATCHED)
    gateway.peer.send(*[NINE.read(2, 56)] * 60)
    gateway.line(gateway.process.stderr, b"wait for room\n")
    gateway.stop()


# 6: errors

def ends_with(message, *options, device=None, link="fd:0", status=2):
    gateway = Gateway(device or Device(), *options, link=link)
    gateway.ends(status, f"gateway: {message}\n")


def bad_tables():
    word = bytes.fromhex("0201030200000000")  # a record that is well, for the ones behind it
    bad = {
        "2002030202000000": "the object is over 31",
        "02020B0202000000": "the access has other bits than 1, 2 and 4",
        "0202030002000000": "the length is 0",
        "0202030202004000": "the data descriptor is not 0, and the access has no network data",
        "0202070202000000": "the data descriptor is refused",
        "0202070302004000": "the length is 3, that of its data descriptor, 0040, is 2",
        "0202070402001001": "the length is 4, that of its data descriptor, 0110, is 3",  # well before 02's 2026-04
        "0201030202000000": "object and attribute do not rise",
        "01FF030202000000": "object and attribute do not rise",
        "0202030203000000": "the offset is not the end of the record before, or not 0 in the first",
        "0202030602000000": "its end, 8, is beyond a store of 7 bytes",
    }
    for record_of_table, rule in bad.items():
        device = Device(word + bytes.fromhex(record_of_table) + word, bytes(7))
        ends_with(f"{device.table}: record 1 ({bytes.fromhex(record_of_table).hex(' ').upper()}): {rule}", device=device)
    device = Device(bytes.fromhex("0201030201000000"), bytes(7))
    ends_with(f"{device.table}: record 0 (02 01 03 02 01 00 00 00): the offset is not the end of the record before, or not 0 in the first",
              device=device)
    most = b"".join(bytes([i >> 8, i & 255, 3, 255, i * 255 & 255, i * 255 >> 8, 0, 0]) for i in range(129))
    device = Device(most, bytes(32768))
    ends_with(f"{device.table}: record 128 (00 80 03 FF 80 7F 00 00): its end, 32895, is beyond a store of 32768 bytes", device=device)
    for table, store, message in (bytes(12), b"", "{table}: 12 bytes, no multiple of 8"), (bytes(8200), b"", "{table}: over 8192 bytes"), \
            (word, bytes(32769), "{store}: over 32768 bytes"):
        device = Device(table, store)
        ends_with(message.format(table=device.table, store=device.store), device=device)
    for table, store in (b"", b""), (most[:1024], bytes(32768)):  # no records, and the longest store
        Gateway(Device(table, store)).hang_up()


def bad_options():
    for address in "126", "265", "x", "", "-1", "4294967305", "9 ":
        ends_with(f"address {address}: not a number from 0 to 125", device=Device(address=address))
    device = Device(store=None)
    ends_with(f"{device.store}: no such file; --new-store makes it", device=device)
    device = Device()
    os.remove(device.table)
    ends_with(f"{device.table}: {os.strerror(errno.ENOENT)}", device=device)
    device = Device()
    device.store = "/dev/null"
    ends_with("/dev/null: no regular file", device=device)
    ends_with("unrecognized option '--loud'", "--loud")
    ends_with("--address, --table, --store and one link are needed; --help tells more", "fd:0", link="fd:1")
    ends_with("tcp:1: a link is can:IFACE, unix:PATH or fd:N", link="tcp:1")
    ends_with(f"can:nosuch0: {os.strerror(errno.ENODEV)}", link="can:nosuch0")
    ends_with("unix:: the path has not 1 to 107 bytes", link="unix:")
    for number in "0", "77", "x", "":
        ends_with(f"fd:{number}: no open SOCK_SEQPACKET socket", link=f"fd:{number}")
    stream = Gateway(Device(), kind=socket.SOCK_STREAM)
    expect("message", stream.ends(2)[1].split(": ", 2)[2], "no open SOCK_SEQPACKET socket\n")
    for program in GATEWAY, EXPLAIN:
        helped = subprocess.run([program, "--help"], capture_output=True, timeout=LIMIT, check=True)
        expect("help", (helped.stdout[:6], helped.stderr), (b"usage:", b""))


# 7: odd frames

def odd_frames():
    write = NINE.write(3, 10, b"\x2C\x01")
    odd = [frame_of(write, flags) for flags in (EXTENDED, ERROR_FLAG, EXTENDED | ERROR_FLAG)] + [frame_of(record(9, 0x94, *write[2:]))]
    odd += [frame_of(record(9, 0x80 | dlc, *write[2:])) for dlc in range(9, 16)]
    identifier = write[0] << 3 | write[1] >> 5
    odd += [CAN_FRAME.pack(identifier, length, 0, write[2:]) for length in (9, 15, 16, 20, 255)]  # only a Unix peer has such
    odd += [CAN_FRAME.pack(identifier, 8, raw, write[2:]) for raw in (16, 20, 255)]
    odd += [frame_of(write)[:size] for size in (0, 1, 8, 12, 15)] + [frame_of(write) + bytes(more) for more in (1, 56, 4000)]
    device = Device()
    gateway = Gateway(device, "--trace")
    for message in odd:
        gateway.peer.link.send(message)
        gateway.peer.converse((NINE.read(3, 10), NINE.value(3, 10, bytes(2))))
    traced = gateway.hang_up().splitlines()
    expect("the data of a remote frame", [line[:40] for line in traced if line.startswith("unreadable 09 94")], ["unreadable 09 94 00 00 00 00 00 00 00 00"])
    lines = [line for line in traced if line.startswith(("dropped", "  refused"))]
    expect("the trace", lines, ["dropped: an extended frame", *["dropped: an error frame"] * 2,
                                *["  refused 3: RTR, a DLC over 8, or address 126 or 127"] * 10,
                                *["dropped: a frame with a length over 15"] * 6, *["dropped: a message of another size than a frame"] * 8])
    expect("the store", device.stored(), bytes(67))


# 8: words

def kept(name):
    with open(os.path.join(HERE, name), encoding="ascii") as file:
        return file.read()


def explained(content, *options, status=0):
    done = subprocess.run([EXPLAIN, *options], input=content, capture_output=True, timeout=LIMIT)
    expect(f"explain's status ({done.stderr.decode().strip()})", done.returncode, status)
    return done.stdout.decode()


def talk():
    """a short conversation: requests with their answers"""
    tag = NINE.fragments(2, 56, NORTH)
    flagged = record(9, 0xA2, 0x22, 56)
    action = record(9, 0xC2, 3, 1)
    return [
        (NINE.write(3, 10, b"\x2C\x01"), [NINE.wrote(3, 10)]),
        (NINE.read(3, 10), NINE.value(3, 10, b"\x2C\x01")),
        (NINE.write(3, 10, b"\x2C"), [error(WRITE, 3, 10, BAD_DLC)]),
        (NINE.write(2, 18, b"\1"), [error(WRITE, 2, 18, READ_ONLY)]),
        (NINE.read(2, 118), [error(READ, 2, 118, NO_PARAMETERS)]),
        (flagged, [error(READ, 2, 56, BAD_DLC)]),
        (action, [error(ACTION, 3, 1, NO_PARAMETERS)]),
        (NINE.short(WRITE_ON), []),
        (Host(10).read(3, 10), []),
        (Host(10).refused(READ, 3, 10, NO_PARAMETERS), []),
        (tag[0], []),
        (tag[2], [error(WRITE, 2, 56, OUT_OF_ORDER)]),
        (NINE.read(2, 56), NINE.value(2, 56, bytes(32))),
    ]


def trace():
    eye_turns = [(rec, answers) for rec, answers, _ in photo_eye_turns()]
    for device, turns, expected in (Device(), talk(), "trace.txt"), (photo_eye(), eye_turns, "photo_eye_trace.txt"):
        gateway = Gateway(device, "--trace")
        gateway.peer.converse(*turns)
        lines = gateway.hang_up().splitlines()
        expect("the first line", lines[0].split(":")[0], f"serving address {device.address} on fd")
        expect("the trace", lines[1:], kept(expected).splitlines())


def explain_a_capture():
    expect("the sample in words", explained(content("captures/sample.sds"), status=1).splitlines(), kept("sample.txt").splitlines())
    expect("the same from a file", explained(b"", "captures/sample.sds", status=1).splitlines(), kept("sample.txt").splitlines())


def explain_answers():
    device = Device()
    options = "--table", device.table, "--address", "9"
    frames = [frame for rec, answers in talk() for frame in (rec, *answers)]
    strange = [NINE.wrote(3, 10), NINE.read(3, 10), error(READ, 3, 10, NO_PARAMETERS),  # an answer to nothing, and one that the table does not give
               error(READ, 3, 10, NO_PARAMETERS),  # an Error to nothing
               NINE.read(3, 11), error(READ, 3, 11, 8), NINE.read(3, 11), NINE.answer(READ, ERROR, 3, 11)]  # another code than the table's, and none
    late = [NINE.write(3, 10, b"\1"), NINE.write(3, 10, b"\1\2"), error(WRITE, 3, 10, BAD_DLC), NINE.wrote(3, 10)]  # both requests, both answers
    lost = [NINE.write(3, 10, b"\1"), NINE.read(2, 10), NINE.read(3, 11), NINE.read(3, 10), *NINE.value(3, 10, b"\1\2")]  # only one answer
    untrue = [NINE.short_answer(WRITE_OFF_ACK), NINE.short(WRITE_OFF), NINE.short_answer(WRITE_OFF_ACK)]  # what the table does not serve
    event = [NINE.answer(EVENT, 0, 3, 1), NINE.short_answer(CHANGE_ON)]  # no answers: the device begins
    seen = explained(b"".join(frames + strange + late + lost + untrue + event), *options).splitlines()
    expect("answers explained", seen, kept("explain.txt").splitlines())


def explain_codes():
    """an Error says why by itself: what shares a code, what our devices do not send; no Error, no byte, two bytes or the flag, and it says nothing"""
    errors = [error(READ, 3, 10, code) for code in (0, NO_PARAMETERS, READ_ONLY, 3, BAD_DLC, 10, OUT_OF_ORDER, 255)]
    others = [NINE.answer(READ, ERROR, 3, 10), record(0x89, 0xA3, 0x43, 10, 9), record(0x89, 0xA4, 0x83, 10, 9, 9), record(0x89, 0xA5, 0xA3, 10, 0, 9, 9)]
    expect("codes in words", explained(b"".join(errors + others)).splitlines(), kept("codes.txt").splitlines())


def codes_for_fitters():
    """docs/ERRORS.md has a row for each code that some refusal has, with all of its refusals, and no other row"""
    rows = re.findall(r"^\| (\d+) \|.*\| ([\d, ]+) \|$", content("docs/ERRORS.md").decode(), re.MULTILINE)
    lines = explained(b"".join(error(READ, 3, 10, code) for code in range(256))).splitlines()
    said = [(str(code), ", ".join(re.findall(r"(?:refused|, or) (\d+): ", line))) for code, line in enumerate(lines)]
    expect("the codes in words", rows, [(code, numbers) for code, numbers in said if numbers])


def explain_short_answers():
    """behind the capture, what is no answer or none to what was asked"""
    on, off, on_ack, off_ack = ON[0], OFF[0], ON[1][0], OFF[1][0]
    action, refused = record(36, 0xC2), EYE.refused(ACTION, 0, 0, NO_PARAMETERS)  # of object 0, action 0: service 6, as the short form's Write OFF ACK
    rest = [on_ack, on, on, on_ack, on_ack, on_ack,  # asked for twice and acknowledged four times
            on, off, off_ack, on_ack,  # the second is answered, so the first is not any more
            action, off_ack, refused, off, refused, off_ack,
            EYE.short_answer(CHANGE_ON), EYE.short(CHANGE_ON_ACK), EYE.short_answer(CHANGE_OFF), EYE.short_answer(WRITE_ON),  # the device begins
            EYE.short(CHANGE_ON), EYE.short_answer(CHANGE_ON_ACK), EYE.short_answer(CHANGE_ON_ACK),
            on, Host(37).short_answer(WRITE_ON_ACK), on_ack]
    options = "--table", "captures/photo_eye.table", "--address", "36"
    seen = explained(content("captures/photo_eye.sds") + b"".join(rest), *options).splitlines()
    expect("answers in short form explained", seen, kept("photo_eye.txt").splitlines())


def explain_a_live_pipe():
    process = subprocess.Popen([EXPLAIN], stdin=subprocess.PIPE, stdout=subprocess.PIPE, bufsize=0)
    for rec, line in (NINE.read(3, 10), b"to   9    Read    Request     object 3   attribute 10\n"), \
            (record(36, 0xA0), b"to   36   short   Write ON State\n"):
        process.stdin.write(rec)
        expect("a line as the record arrives", read_line(process.stdout), line)
    process.stdin.close()
    expect("status", process.wait(LIMIT), 0)


def explain_errors():
    table = Device(bytes(8)).table
    for options, message in [(("--table", table), "--table and --address go together; --help tells more"),
                             (("--table", table, "--address", "9"), f"{table}: record 0 (00 00 00 00 00 00 00 00): the length is 0"),
                             (("--table", table, "--address", "126"), "address 126: not a number from 0 to 125"),
                             (("--loud",), "unrecognized option '--loud'"), (("nosuch",), f"nosuch: {os.strerror(errno.ENOENT)}")]:
        done = subprocess.run([EXPLAIN, *options], input=b"", capture_output=True, timeout=LIMIT)
        expect("status, output and message", (done.returncode, done.stdout, done.stderr.decode()), (2, b"", f"explain: {message}\n"))


# 9: a CAN interface

def vcan():
    """gives why it was not run"""
    name = f"sds{os.getpid()}"
    added = subprocess.run(["ip", "link", "add", name, "type", "vcan"], capture_output=True, text=True)
    none = "this kernel has none"
    for said, reason in ("Unknown device type", none), ("not supported", none), ("not permitted", "making an interface needs root"):
        if said in added.stderr:
            return reason
    expect("ip's status and message", (added.returncode, added.stderr), (0, ""))
    try:
        subprocess.run(["ip", "link", "set", name, "up"], check=True)
        link = socket.socket(socket.AF_CAN, socket.SOCK_RAW, socket.CAN_RAW)
        link.bind((name,))
        device = Device()
        gateway = Gateway(device, "--trace", link=f"can:{name}")
        rename_both(Peer(link))
        link.close()
        gateway.stop()
        expect("the store", device.stored(), b"\0" + NORTH + b"\0\0" + SOUTH)
    finally:
        subprocess.run(["ip", "link", "del", name], check=True)
    return None


def main():
    seed = random.randrange(1 << 32)

    def killed_at_random_moments():
        killed_at_random(seed)

    for test in [two_tags_by_turns, cases_of_the_scope_page, examples_of_the_specification, a_block_of_24_points,
                 short_writes, short_writes_with_garbage, no_point_to_write,
                 killed_between_two_frames, killed_at_random_moments, restarted, saved_before_the_answer, not_saved_not_acknowledged,
                 new_store, link_to_a_store,
                 unix_peers, unix_path_taken, peer_that_leaves_early, peer_that_reads_late, full_queue, broken_link,
                 stopped_while_frames_keep_coming, stopped_while_a_peer_takes_nothing,
                 bad_tables, bad_options, odd_frames,
                 trace, explain_a_capture, explain_answers, explain_codes, codes_for_fitters, explain_short_answers, explain_a_live_pipe, explain_errors,
                 vcan]:
        name = test.__name__.replace("_", " ") + (f" (seed {seed})" if test is killed_at_random_moments else "")
        try:
            skipped = test()
        except (Failure, OSError, subprocess.SubprocessError) as failure:
            print(f"{name} FAILED: {failure}\nthe latest gateway: {Gateway.started[-1].last_words()}", file=sys.stderr)
            return 1
        print(f"{name}: {skipped}, not run" if skipped else f"{name} ok", flush=True)
    return 0


if __name__ == "__main__":
    try:
        sys.exit(main())
    finally:
        for gateway in Gateway.started:
            gateway.process.kill()  # does nothing to one that has ended
        shutil.rmtree(SCRATCH)
