from monitors import Monitor, cont, delay


class Buffer(Monitor):
    def start(self, places):
        self.places, self.inside = places, []

    def put(self, item):
        if len(self.inside) == self.places:
            yield delay("room")
        self.inside.append(item)
        yield cont("items")

    def take(self):
        if not self.inside:
            delay("items")
        item = self.inside.pop(0)
        yield cont("room")
        return item
