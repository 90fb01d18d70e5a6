"""`classroom/every --wrong NAME`: the shortest way into what goes wrong."""
import math
import sys
from pathlib import Path

import monitors
import senders
import tables
from graph import Orders, Search
from runpicture import Picture
from runtable import waits_for
from wrong import WRONG, failing  # noqa: F401

MOST_CARDS = 6
NAMES = ("disk-first", "no-continue", "signal-and-continue", "signal-and-leave", "no-stop", "two-disks", "early-last")


def problem_of(whole, right):
    """What is wrong with a state: two have the disk, nobody can go on, or all have ended and the paper is another one; a first part of it will
    do where it needn't be whole."""
    def wrong(graph, state, moves):
        holder = graph.values["disk"][state[graph.places["disk"]]]["holder"]
        if isinstance(holder, str):
            return f"processes {' and '.join(holder.split())} have the disk at once"
        if moves:
            return None
        if not graph.ended(state):
            return "nobody can go on"
        paper = tables.paper_of(graph, state)
        if paper != right[:len(paper)] or whole and paper != right:
            return "all have ended, and the paper isn't that of the jobs one after another"
        return None
    return wrong


def right_paper(five, room):
    """The paper of the right five."""
    core = five.maker(None, room)[1]()
    core.run("least")
    return tuple(core.paper)


def show(options, five, most):
    if options.wrong in ("signal-and-continue", "signal-and-leave"):
        show_senders(options)
        return
    wrong = WRONG[options.wrong]
    room = options.page or (five.least_page() if options.wrong == "early-last" else None)
    right = right_paper(five, room)
    judge = problem_of(options.wrong != "no-stop", right)
    search = Search(five.graph(wrong, room), most, judge)
    print(f"{options.deck}, {options.wrong}: {sentence(wrong)}")
    if not search.problem:
        print(f"  nothing goes wrong in {len(search.states)} states: the deck is too small for that, or its spools too large")
        return
    way = search.way(search.wrong_at)
    print(f"  {search.problem}; the shortest way there has {len(way)} events")
    events, core = five.events(way, wrong, room)
    five.show(events, core)
    for line in behind(search, five, core, right):
        print(line)
    if options.picture:
        title = f"{options.wrong}: {search.problem}, events 1 to {len(events)} of {len(events)}"
        Picture(title, five.names, events).write(options.picture)
    if options.odds:
        print_odds(Search(five.graph(wrong, room), most), judge, right)


def sentence(function):
    """The first sentence of what a function says of itself, in a line."""
    text = " ".join(function.__doc__.split()).split(". ")[0].rstrip(".")
    return text[0].lower() + text[1:]


def behind(search, five, core, right):
    """Who waits for what, or the paper."""
    if search.problem == "nobody can go on":
        for p in core.next:
            if core.next[p] is not None:
                yield f"{p} {five.names[p]:8}{waits_for(core, p, five.names)}"
    elif search.problem.startswith("all"):
        shown = lambda lines: b"; ".join(lines).decode() or "nothing"
        yield f"the paper: {shown(core.paper)}"
        yield f"should be: {shown(right)}"


def print_odds(search, judge, right):
    """Of all states of the wrong five, how many are wrong, and how often a run comes to one."""
    graph = search.graph
    bad = {at for at, state in enumerate(search.states) if judge(graph, state, graph.moves(state))}
    orders = Orders(search, bad)
    well = sum(orders.chance.get(at, 0) for at in search.ends if at not in bad)
    print(f"of {len(search.states)} states {len(bad)} are such; where who goes on next is drawn evenly,")
    print(f"one run in {rounded(1 / well)} comes to none of them" if well else "each run comes to one of them")
    if not search.stuck and {tables.paper_of(graph, search.states[at]) for at in search.ends} == {right}:
        print("every order prints the right paper")


def rounded(number):
    return f"{number:,.1f}" if number < 1000 else f"{number:,.0f}" if number < 10**9 else f"10^{round(math.log10(number))}"


def show_senders(options):
    """Two senders at one line buffer, in every order."""
    simulate = tables.load("simulate")
    cards = [simulate.shown(card) for card in simulate.cards(Path(options.deck).read_bytes())][:MOST_CARDS]
    scene = senders.scene(cards, False)
    found, right = monitors.search(scene), monitors.search(senders.scene(cards, True))
    print(f"{options.deck}, signal-and-continue: two senders put its cards in turn, and test by `if`; who continues goes on inside")
    if len(cards) == MOST_CARDS:
        print(f"  (its first {MOST_CARDS} cards)")
    if right.problem:
        sys.exit(f"every: the right one goes wrong too: {right.problem}")
    if not found.problem:
        print(f"  nothing goes wrong in {found.states} states: the deck has too few cards")
        return
    print(f"  {found.problem}; the shortest way there has {len(found.way)} events")
    print("\n".join(monitors.told(scene, found.way)))
    print(f"with the turn handed over, nothing is lost in all {right.states} states")
    if options.picture:
        events = monitors.events(scene, found.way)
        Picture(f"signal-and-continue: {found.problem.split(':')[0]}", scene.names, events).write(options.picture)
