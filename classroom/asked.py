"""The words of `classroom/every`."""
import sys
from types import SimpleNamespace

from going_wrong import NAMES

NUMBERS = {"--spools": (1, 100000), "--page": (1, 506), "--tasks": (1, 8), "--fails": (1, 1000000)}
FLAGS = ("--twins", "--most", "--odds")
WORDS = ("--paper", "--wrong", "--picture", "--times", "--solo")


def refuse(why):
    sys.exit(f"every: {why}; classroom/every alone says what there is")


def read(text):
    """The options, or the end of the program with a word on what is wrong with them."""
    options = SimpleNamespace(deck=None, spools=None, page=None, paper=None, tasks=8, fails=None, wrong=None, picture=None, times=None,
                              keys=None, cards=None, twins=False, most=False, odds=False)
    words = sys.argv[1:]
    if not words or words[0] in ("-h", "--help", "help"):
        print(text)
        sys.exit(0 if words else 1)
    while words:
        take(options, words)
    check(options)
    return options


def take(options, words):
    word = words.pop(0)
    if word in FLAGS:
        setattr(options, word[2:], True)
    elif word in NUMBERS or word in WORDS:
        if not words:
            refuse(f"{word} wants a word behind it")
        value = words.pop(0)
        if word == "--solo":
            if not words:
                refuse("--solo wants keys and cards")
            options.keys, options.cards = value, words.pop(0)
        else:
            setattr(options, word[2:], number(word, value) if word in NUMBERS else value)
    elif word.startswith("--") or options.deck:
        refuse(f"what is {word}?")
    else:
        options.deck = word


def number(word, value):
    least, most = NUMBERS[word]
    if not value.isdigit() or not least <= int(value) <= most:
        refuse(f"{word} wants a number from {least} to {most}")
    return int(value)


def check(options):
    asked = [kind for kind in (options.deck, options.times, options.keys) if kind]
    if len(asked) != 1:
        refuse("a deck, --times SCRIPT or --solo KEYS CARDS")
    if options.wrong and (options.wrong not in NAMES or not options.deck or options.twins):
        refuse(f"--wrong is for a deck and the five, and is one of {', '.join(NAMES)}")
    if options.picture and not (options.wrong or options.most and options.deck) or options.odds and not options.wrong:
        refuse("--picture goes with --wrong or --most, and --odds with --wrong")
    for path in filter(None, (options.deck, options.times, options.keys, options.cards, options.paper)):
        try:
            open(path, "rb").close()
        except OSError as failed:
            refuse(f"{path}: {failed.strerror}")


def too_many(options, known):
    """What one can do where there are too many states."""
    cut = {"deck": "take fewer cards, or --spools 1, so that fewer pages are on their way", "times": "take fewer tasks (--tasks N) or fewer lines",
           "keys": "type fewer commands"}
    kind = "deck" if options.deck else "times" if options.times else "keys"
    return f"every: more than {known:,} states: {cut[kind]}"
