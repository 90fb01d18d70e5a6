from monitors import Monitor, cont, delay


class Buffer(Monitor):
    def start(self, places):
        self.places, self.inside = places, []

    def put(self, item):
        self.inside.append(item)
        yield cont("items")

    def take(self):
        return self.inside.pop(0)
