"""
The tools that write logs and read them: can-utils and python-can. candump and canplayer run as they are, on the bus of bus.c. Where they write or
read otherwise than 02 it is said here; that is of Debian 12, can-utils 2020.11 and python-can 4.1.
"""
import io
import os
import socket
import struct
import subprocess
import tempfile

import can

from frames import Frame
from programs import Failure

BUS = os.path.abspath("target/tests/candump/bus.so")
PATIENCE = 60
ARRIVAL = struct.Struct("=16sqq")  # interface, seconds, micros; a frame follows
CAN_FRAME = struct.Struct("=IB3x8s")  # identifier and flags, length, data
CANFD_FRAME = struct.Struct("=IBB2x64s")  # with flags of CAN FD
EXTENDED, REMOTE, ERROR = 0x80000000, 0x40000000, 0x20000000


def can_frame(frame):
    return CAN_FRAME.pack(frame.identifier | REMOTE * frame.remote, frame.length, frame.data)


def on_bus(command, **options):
    """the command started on a bus, and our end of it"""
    ours, theirs = socket.socketpair(socket.AF_UNIX, socket.SOCK_SEQPACKET)
    ours.settimeout(PATIENCE)
    with theirs:
        environment = dict(os.environ, LD_PRELOAD=BUS, BUS=str(theirs.fileno()))
        return subprocess.Popen(command, pass_fds=[theirs.fileno()], env=environment, **options), ours


def candump(arrivals, *options):
    """the log of frames that arrive: interface, seconds, micros, and the struct of the frame"""
    with tempfile.TemporaryFile() as log:
        process, bus = on_bus(["candump", "-L", "-n", str(len(arrivals)), *options], stdout=log)
        with bus:
            for interface, seconds, micros, frame in arrivals:
                bus.send(ARRIVAL.pack(interface.encode(), seconds, micros) + frame)
            if process.wait(PATIENCE):
                raise Failure(f"candump ends with {process.returncode}")
        log.seek(0)
        return log.read()


def canplayer_reads(log):
    """the frames that canplayer sends of a log, at once and without gaps"""
    with tempfile.NamedTemporaryFile() as file:
        file.write(log)
        file.flush()
        process, bus = on_bus(["canplayer", "-t", "-g", "0", "-I", file.name])
        frames = []
        with bus:
            while packet := bus.recv(128):
                identifier, length, data = CAN_FRAME.unpack(packet)
                remote = identifier & REMOTE != 0
                frames.append(Frame(identifier & ~REMOTE, remote, length, b"" if remote else data[:length]))
        if process.wait(PATIENCE):
            raise Failure(f"canplayer ends with {process.returncode}")
        return frames


def converted(command, text):
    """what a tool makes of a text; what it says of dates and locales does not matter"""
    return subprocess.run(command, input=text, stdout=subprocess.PIPE, stderr=subprocess.DEVNULL, timeout=PATIENCE, check=True).stdout


def messages_of(frames):
    """frames as python-can has them, received and sent by turns, some milliseconds apart"""
    return [can.Message(timestamp=1713859200 + n / 256, channel="can0", arbitration_id=frame.identifier, is_extended_id=False,
                        is_remote_frame=frame.remote, dlc=frame.length, data=None if frame.remote else frame.data, is_rx=n % 2 == 0)
            for n, frame in enumerate(frames)]


def frame_of(message):
    if message.is_extended_id or message.is_error_frame or message.is_fd:
        raise Failure(f"no frame that has a record: {message}")
    return Frame(message.arbitration_id, message.is_remote_frame, message.dlc, bytes(message.data))


def python_can_writes(frames):
    """a log of python-can; it ends each line with the frame's direction and writes a remote frame as R, without its length"""
    text = io.StringIO()
    writer = can.CanutilsLogWriter(text)
    for message in messages_of(frames):
        writer.on_message_received(message)
    return text.getvalue().encode()


def python_can_reads(log):
    return [frame_of(message) for message in can.CanutilsLogReader(io.StringIO(log.decode("ascii")))]


def asc_of(frames):
    """an .asc file of python-can"""
    with tempfile.TemporaryDirectory() as folder:
        path = os.path.join(folder, "frames.asc")
        with can.ASCWriter(path) as writer:
            for message in messages_of(frames):
                writer.on_message_received(message)
        with open(path, "rb") as file:
            return file.read()


def asc2log(asc):
    """a log of can-utils; it ends each line with the frame's direction too"""
    return converted(["asc2log"], asc)


def log2asc(log):
    """an .asc file of can-utils. It takes a time of 0 seconds for none yet, and writes its head again before each such frame."""
    return converted(["log2asc", "can0"], log)


def asc_read(asc):
    return [frame_of(message) for message in can.ASCReader(io.StringIO(asc.decode("ascii")))]


def tidied(log):
    """a log in which each line is as 02 has it: one space before the interface, no direction behind the data"""
    return converted(["sed", "s/)  */) /; s/ [RT]$//"], log)
