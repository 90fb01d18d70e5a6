from monitors import Monitor, cont, delay


class AlarmClock(Monitor):
    """The sleepers with their times. Who wakes lets the next one wake that is due."""

    def start(self):
        self.now, self.sleepers = 0, {}

    def due(self):
        return next((me for me, time in self.sleepers.items() if time <= self.now), None)

    def sleep(self, me, seconds):
        self.sleepers[me] = self.now + seconds
        yield delay(me)
        del self.sleepers[me]

    def tick(self):
        self.now += 1
        if self.due() is not None:
            yield cont(self.due())
