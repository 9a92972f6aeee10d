"""The engine: the proved bench program, which is handed frames and answers each with a line."""

import os
import signal
import subprocess

from wire.models import MODELS

HOST, TICKS, FRESH = b"\x01", b"\x03", b"\x04"
HOST_BYTES, MOST_TICKS = 60, 255


class EngineFault(Exception):
    """The engine cannot be gone on with, and why."""


class Engine:
    """One box in a process of its own."""

    def __init__(self, command, model):
        # a group of its own: a Ctrl-C is for the box, which then ends its engine
        self._process = subprocess.Popen(
            command, stdin=subprocess.PIPE, stdout=subprocess.PIPE, start_new_session=True)
        self.fd = self._process.stdout.fileno()
        self._read = b""
        try:
            self.ask(FRESH + MODELS[model].fresh)
        except BaseException:
            self.close()
            raise

    def _line(self, frame):
        """The output line for an input line."""
        try:
            # shorter than what a pipe takes in one piece
            os.write(self._process.stdin.fileno(), frame + b"\n")
        except BrokenPipeError:
            raise self.died()
        while b"\n" not in self._read:
            more = os.read(self.fd, 65536)
            if not more:
                raise self.died()
            self._read += more
        line, self._read = self._read.split(b"\n", 1)
        return line

    def ask(self, frame, refusals=()):
        """The answer number and the bytes sent, for one frame that the box may refuse by these numbers alone."""
        line = self._line(frame.hex().upper().encode())
        answer, sent = int(line[:2], 16), bytes.fromhex(line[2:].decode())
        if answer != 0 and answer not in refusals:
            raise EngineFault("the engine answers %02X to %s" % (answer, frame.hex().upper()))
        return answer, sent

    def host(self, data):
        """What the box sends for host bytes, a message for each frame of them."""
        for at in range(0, len(data), HOST_BYTES):
            yield self.ask(HOST + data[at:at + HOST_BYTES])[1]

    def ticks(self, count):
        """The last line that so many ticks bring, or nothing."""
        last = b""
        while count > 0:
            some = min(count, MOST_TICKS)
            sent = self.ask(TICKS + bytes([some]))[1]
            last = sent[sent.rfind(b"\n", 0, -1) + 1:] or last
            count -= some
        return last

    def died(self):
        """How the process ended, as a fault to raise."""
        status = self._process.wait()
        how = signal.Signals(-status).name if status < 0 else "status %d" % status
        return EngineFault("the engine ended (%s)" % how)

    def close(self):
        """Ends the process, a build too, and waits for it."""
        try:
            os.killpg(self._process.pid, signal.SIGKILL)
        except ProcessLookupError:
            pass
        self._process.wait()
        self._process.stdin.close()
        self._process.stdout.close()
