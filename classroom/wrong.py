"""The five with one thing wrong. Each function is given a copy of oracle/simulate and gives a core in which one thing differs; WRONG has
them with what they do, and what to look for."""

FAULT, STOPPED = "print fault", "stopped"
# Of each process the buffers that it uses, in the order in which it stops them.
ENDS = {1: [(1, "s")], 2: [(1, "r"), (2, "s")], 3: [(2, "r"), (3, "s")], 4: [(3, "r"), (4, "s")], 5: [(4, "r")]}


def disk_first(simulate):
    """Who moves a page asks for the disk, and then waits for room or for a page with the disk in hand."""
    def put_page(buffer, page):
        yield ("request",)
        yield ("await", buffer, "s")
        yield ("putpage", buffer, page)
        yield ("release",)

    def take_page(buffer):
        yield ("request",)
        yield ("await", buffer, "r")
        page = yield ("takepage", buffer)
        yield ("release",)
        return page
    simulate.put_page, simulate.take_page = put_page, take_page
    return simulate.Core


def no_continue(simulate):
    """A put lets nobody go on."""
    class Buffer(simulate.Buffer):
        def go_on(self, side):
            if side == "s":
                super().go_on(side)
    simulate.Buffer = Buffer
    return simulate.Core


def two_disks(simulate):
    """A request is granted at once, whoever has the disk. Who has it are then both: `2 3`."""
    class Core(simulate.Core):
        def step(self, p):
            kind, desk = self.next[p][0], self.desk
            if kind not in ("request", "release"):
                super().step(p)
                return
            holders = str(desk.holder).split() if desk.holder else []
            if kind == "request":
                holders.append(str(p))
                desk.grants += 1
            else:
                holders.remove(str(p))
            desk.holder = " ".join(holders) if len(holders) > 1 else int(holders[0]) if holders else None
            self.events += 1
            self.go(p)
    return Core


def early_last(simulate):
    """The input process marks each page as the last one."""
    def input_process():
        held = []
        while True:
            item = yield ("take", 1)
            for items, _ in simulate.pages_of([item], held):
                yield from simulate.put_page(2, (items, True))
            if item is simulate.END:
                return
    simulate.input_process = input_process
    return simulate.Core


def closing(first, process, ends, stops):
    """A process that closes down where something fails or it is told that the other side of a buffer has stopped: it gives the disk back,
    stops its buffers in order, and ends. Its prints are numbered from 1."""
    action, prints, holds = first, 0, False
    while True:
        prints += action[0] == "print"
        holds = action[0] == "request" or holds and action[0] != "release"
        answer = yield ("print", prints) if action[0] == "print" else action
        if answer in (FAULT, STOPPED):
            if holds:
                yield ("release",)
            for buffer, side in ends if stops else []:
                yield ("stop", buffer, side)
            return
        try:
            action = process.send(answer)
        except StopIteration:
            return


def failing(fails, stops=True):
    """The five whose printer fails at the print of this number."""
    def changed(simulate):
        class Core(simulate.Core):
            def __init__(self, *words):
                super().__init__(*words)
                for buffer in self.buffers.values():
                    buffer.stopped = None
                for p, process in self.processes.items():
                    self.processes[p] = closing(self.next[p], process, ENDS[p], stops)
                    self.next[p] = next(self.processes[p])

            def step(self, p):
                if self.next[p] == ("print", fails):
                    self.events += 1
                    self.go(p, FAULT)
                else:
                    super().step(p)

            def visit(self, p, kind, rest):
                buffer, side = self.buffers[rest[0]], self.side((kind, *rest))
                other = {"s": "r", "r": "s"}[side]
                if kind == "stop":
                    buffer.stopped = buffer.stopped or side
                    buffer.go_on(other)
                    self.go(p)
                elif buffer.stopped == other and (side == "s" or not buffer.inside):
                    buffer.resume(side, p)
                    self.go(p, STOPPED)
                else:
                    super().visit(p, kind, rest)
        return Core
    return changed


def no_stop(simulate):
    """The printer fails at its first line, and who has a fault or is told of one ends without stopping its buffers."""
    return failing(1, stops=False)(simulate)


WRONG = {"disk-first": disk_first, "no-continue": no_continue, "two-disks": two_disks, "early-last": early_last, "no-stop": no_stop}
