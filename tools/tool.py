"""What the tools that read reports do alike: their words, their help, and how they end."""

import signal
import sys

from report import ReportError


class Misuse(Exception):
    """The words of a command are not those of its usage."""


def run(main, text, usage, status=1):
    """Calls main with the words of the command. --help prints the text of the tool. Words that are none of its usage, and a
    file that is no report, end it with one line and this status; a pipe that breaks and Ctrl-C end it without any."""
    for quiet in (signal.SIGPIPE, signal.SIGINT):
        signal.signal(quiet, signal.SIG_DFL)
    words = sys.argv[1:]
    if "--help" in words:
        print(text.strip())
        return
    try:
        sys.exit(main(words))
    except Misuse:
        print(f"usage: {usage}", file=sys.stderr)
    except ReportError as error:
        print(error, file=sys.stderr)
    sys.exit(status)


def options_of(words, flags="", numbers="", names=""):
    """The words that are no options, and the options: of the flags each whether it stands there, of the numbers and the names
    each the one behind it, a number from 1 on, or None. Another option is a misuse, and so is one that stands twice."""
    plain, options = [], {**dict.fromkeys(flags.split(), False), **dict.fromkeys((numbers + " " + names).split())}
    words = iter(words)
    for word in words:
        if not word.startswith("-") or word == "-":
            plain.append(word)
        elif options.get(word, True):  # unknown, or there before
            raise Misuse
        elif word in flags.split():
            options[word] = True
        else:
            options[word] = (number_of if word in numbers.split() else name_of)(next(words, ""))
    return plain, options


def number_of(word):
    if not (word.isascii() and word.isdigit()) or word[0] == "0":
        raise Misuse
    return int(word)


def name_of(word):
    if not word or word.startswith("-"):
        raise Misuse
    return word
