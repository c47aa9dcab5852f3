"""What the tools that work side by side through GNU parallel have alike: whether it is there, and the options handed on to it."""

import subprocess

from command_words import Word, Wrong

HANDED = {
    "--jobs": Word(None, "WORD", ""),
    "--sshlogin": Word(None, "WORD", ""),
}
NO_PARALLEL = "GNU parallel is missing: `apt-get install parallel`, `dnf install parallel` or `brew install parallel` brings it"


def has_parallel():
    """GNU parallel is there; another program of this name is not it."""
    try:
        done = subprocess.run(["parallel", "--version"], capture_output=True, check=False, stdin=subprocess.DEVNULL)
    except OSError:
        return False
    return done.stdout.startswith(b"GNU parallel")


def need_parallel():
    if not has_parallel():
        raise Wrong(NO_PARALLEL)


def handed_on(options, handed):
    """The words for GNU parallel of those options that are handed to it as they are."""
    words = []
    for name in handed:
        if options[name]:
            words += [name] if options[name] is True else [name, options[name]]
    return words
