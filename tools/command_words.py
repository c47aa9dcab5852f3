"""The words behind a tool's name: options that begin with `--`, by a table, and the others.

A table has of each option its kind: Number, Percent, Word or Flag. read(words, table) gives the options, each with its value
or that which holds without it, and the other words; or it raises Wrong, in one line. run_tool(name, main) runs a tool.
"""

import os
import re
import signal
import sys


class Wrong(Exception):
    """What is wrong with the words, in one line."""


class Flag:
    """An option without a value."""

    def __init__(self, text):
        self.text, self.otherwise = text, False

    def told(self, name):
        return name, self.text


class Word:
    """An option whose value is any word."""

    def __init__(self, otherwise, shown, text):
        self.otherwise, self.shown, self.text = otherwise, shown, text

    def told(self, name):
        return f"{name} {self.shown}", self.text

    def value(self, name, word):
        del name
        return word


class Number(Word):
    """An option whose value is a whole number in a range."""

    def __init__(self, otherwise, lowest, highest, text):
        super().__init__(otherwise, "N", text)
        self.lowest, self.highest = lowest, highest

    def told(self, name):
        bounds = f"{self.lowest:,} to {self.highest:,}" + ("" if self.otherwise is None else f"; without it {self.otherwise:,}")
        return f"{name} {self.shown}", f"{self.text} ({bounds})".strip()

    def value(self, name, word):
        if not re.fullmatch("0|[1-9][0-9]{0,19}", word) or not self.lowest <= int(word) <= self.highest:
            raise Wrong(f"{name} {word}: not a number from {self.lowest:,} to {self.highest:,}")
        return int(word)


class Percent(Word):
    """An option whose value is a number of percent, which may have a fraction."""

    def __init__(self, otherwise, text):
        super().__init__(otherwise, "P", text)

    def told(self, name):
        return f"{name} {self.shown}", f"P percent {self.text} (without it {self.otherwise})"

    def value(self, name, word):
        if not re.fullmatch(r"(0|[1-9][0-9]{0,2})(\.[0-9]{1,9})?", word) or float(word) > 100:
            raise Wrong(f"{name} {word}: not a number of percent from 0 to 100")
        return float(word)


def read(words, table):
    """The options, and the other words in their order. A word `--` ends the options."""
    options = {name: kind.otherwise for name, kind in table.items()}
    others, words = [], list(words)
    while words:
        word = words.pop(0)
        if word == "--":
            return options, others + words
        if not word.startswith("--"):
            others.append(word)
        elif word not in table:
            raise Wrong(f"no option {word}")
        elif isinstance(table[word], Flag):
            options[word] = True
        elif not words:
            raise Wrong(f"{word}: its value is missing")
        else:
            options[word] = table[word].value(word, words.pop(0))
    return options, others


def written(options, table):
    """The words that give these options."""
    words = []
    for name, value in options.items():
        if value == table[name].otherwise:
            continue
        words += [name] if value is True else [name, shortest(value)]
    return words


def shortest(value):
    return f"{value:.9f}".rstrip("0").rstrip(".") if isinstance(value, float) else str(value)


def told(table):
    """The lines of a help text, one for each option."""
    rows = [kind.told(name) for name, kind in table.items()]
    width = max(len(form) for form, _ in rows)
    return "".join(f"    {form:{width}}  {text}\n" for form, text in rows)


def run_tool(name, main, *errors):
    """Runs a tool with its words, and ends with the status that it gives: 1 with a line for what is Wrong and for these errors,
    130 where it was interrupted, and quietly where nobody reads on, as before `| head`."""
    signal.signal(signal.SIGPIPE, signal.SIG_IGN)  # so a program that ends while it is written to ends no tool
    try:
        status = main(sys.argv[1:])
        sys.stdout.flush()
    except BrokenPipeError:
        os._exit(0)
    except KeyboardInterrupt:
        status = 128 + signal.SIGINT
    except (Wrong, OSError, *errors) as error:
        why = f"{error.filename}: {error.strerror}" if isinstance(error, OSError) else error
        print(f"{name}: {why}", file=sys.stderr)
        status = 1
    sys.exit(status)
