"""The box at work: host bytes, ticks and readings to the engine, and what it sends to the line."""

import select

from wire import readings
from wire.trace import tell


class Box:
    """An engine with a line, a clock and gauges of these kinds."""

    def __init__(self, engine, terminal, clock, trace, kinds):
        self._engine = engine
        self._terminal = terminal
        self._clock = clock
        self._trace = trace
        self._kinds = kinds

    def tick(self):
        """Gives the engine every tick that is due; of the lines that they bring the last is the one to read."""
        line = self._engine.ticks(self._clock.due())
        if line:
            self._trace.sent(line, self._terminal.stream(line))

    def hear(self):
        """Hands the engine what the host sent."""
        data = self._terminal.read()
        if data:
            self._trace.heard(data)
        for message in self._engine.host(data):
            if message:
                self._trace.sent(message, self._terminal.write(message))

    def look(self):
        """Sees whether a client has come or left."""
        unread = self._terminal.look()
        if unread:
            self._trace.left(unread)

    def gauge(self, line):
        """Takes a line about gauges; true where it ends the box."""
        reasons = readings.reasons(self._kinds)
        try:
            text = readings.text(line)
            if text.split() == ["quit"]:
                return True
            if text.split() == ["help"]:
                print(readings.help_text(self._kinds), flush=True)
                return False
            answer, _ = self._engine.ask(readings.frame(text, self._kinds), reasons)
        except readings.NotUnderstood as fault:
            tell("%s; nothing changed (help tells what is understood)" % fault)
            return False
        if answer == 0:
            self._trace.gauge(text)
        else:
            tell("'%s' is answered %d: %s; nothing changed" % (text, answer, reasons[answer]))
        return False

    def _ready(self, gauges):
        """What has something to say, after the time up to the next tick at most."""
        poll = select.poll()
        poll.register(self._engine.fd, select.POLLIN)
        if self._terminal.is_open:
            poll.register(self._terminal.fd, select.POLLIN | (select.POLLOUT if self._terminal.waits else 0))
        if gauges.ready():
            poll.register(gauges.fd, select.POLLIN)
        return dict(poll.poll(self._clock.wait() / 1e6))

    def run(self, gauges):
        """Serves line and gauges until a line of the gauges ends it."""
        while True:
            ready = self._ready(gauges)
            if self._engine.fd in ready:
                raise self._engine.died()
            self.tick()
            if self._terminal.fd in ready:
                self._terminal.go_on()
                self.hear()
            self.look()
            if gauges.fd in ready and any(map(self.gauge, gauges.lines())):
                return
