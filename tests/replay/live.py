"""Holds a pipe to replay open and looks at each reply as it comes. The command is given as arguments; records are the scope page's cases."""
import os
import select
import subprocess
import sys

PATIENCE = 60  # seconds until a reply that does not come counts as missing
P1, P2, P3 = (bytes.fromhex(text) for text in ("0984030A2C0100000000", "0983030A2C0000000000", "0989030A2C0100000000"))


class Replay:
    def __init__(self, command):
        self.process = subprocess.Popen(command, stdin=subprocess.PIPE, stdout=subprocess.PIPE, bufsize=0)
        self.read = b""

    def send(self, sent):
        self.process.stdin.write(sent)

    def expect(self, what, wanted):
        """Reads until as much has come as is wanted, and compares."""
        while len(self.read) < len(wanted):
            if not select.select([self.process.stdout], [], [], PATIENCE)[0]:
                sys.exit(f"replay: {what}: after {PATIENCE} s there is only {self.read!r} of {wanted!r}")
            piece = os.read(self.process.stdout.fileno(), 4096)
            if not piece:
                break
            self.read += piece
        if self.read != wanted:
            sys.exit(f"replay: {what}: {self.read!r} came, {wanted!r} is wanted")
        self.read = b""
        print(f"replay: {what}: ok")


def main():
    replay = Replay(sys.argv[1:])
    replay.send(P1)
    replay.expect("a record on an open pipe", b"0 1\n")
    replay.send(P2 + P3[:4])
    replay.expect("a record and the front of the next", b"11 1\n")
    replay.send(P3[4:] + P1 + P2)
    replay.expect("the rest of it and two more", b"3 0\n0 1\n11 1\n")
    replay.send(P1[:9])
    replay.process.stdin.close()
    replay.expect("a cut record at the end", b"1 0\n")
    if replay.process.wait(PATIENCE) or replay.process.stdout.read():
        sys.exit("replay: it goes on, or fails, after the end of its input")


main()
