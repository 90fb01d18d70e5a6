from monitors import Monitor, cont, delay


class Place(Monitor):
    def start(self):
        self.inside = None

    def put(self, item):
        if self.inside is not None:
            yield delay("senders")
        self.inside = item
        yield cont("receivers")

    def take(self):
        if self.inside is None:
            yield delay("receivers")
        item, self.inside = self.inside, None
        yield cont("senders")
        return item
