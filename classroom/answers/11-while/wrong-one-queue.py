from monitors import Monitor, cont, delay


class Place(Monitor):
    def start(self):
        self.inside = None

    def put(self, item):
        while self.inside is not None:
            yield delay("all")
        self.inside = item
        yield cont("all")

    def take(self):
        while self.inside is None:
            yield delay("all")
        item, self.inside = self.inside, None
        yield cont("all")
        return item
