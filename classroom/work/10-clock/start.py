from monitors import Monitor, cont, delay


class AlarmClock(Monitor):
    def start(self):
        self.now = 0

    def sleep(self, me, seconds):
        yield delay(me)

    def tick(self):
        self.now += 1
