from monitors import Monitor, cont, delay


class Readers(Monitor):
    def start(self):
        self.reading, self.writing = 0, False

    def begin_read(self, me):
        self.reading += 1

    def end_read(self, me):
        self.reading -= 1

    def begin_write(self, me):
        self.writing = True

    def end_write(self, me):
        self.writing = False
