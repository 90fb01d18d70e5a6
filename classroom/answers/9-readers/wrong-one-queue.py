from monitors import Monitor, cont, delay


class Readers(Monitor):
    """Who waits is kept in two lists. Of those who are let in one after the other, each lets the next one in."""

    def start(self):
        self.reading, self.writing, self.readers, self.writers = 0, False, [], []

    def begin_read(self, me):
        if self.writing or self.writers:
            self.readers.append(me)
            yield delay(("reader", me))
            self.readers.remove(me)
        self.reading += 1
        if self.readers:
            yield cont(("reader", self.readers[0]))

    def end_read(self, me):
        self.reading -= 1
        if self.reading == 0 and self.writers:
            yield cont("writers")

    def begin_write(self, me):
        if self.writing or self.reading:
            self.writers.append(me)
            yield delay("writers")
            self.writers.remove(me)
        self.writing = True

    def end_write(self, me):
        self.writing = False
        if self.readers:
            yield cont(("reader", self.readers[0]))
        elif self.writers:
            yield cont("writers")
