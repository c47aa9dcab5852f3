"""Calls the prover for single crates, over libraries that stand built: for tools/build and tools/check-misuse.

`rt` reads the texts of all crates below before each of its checks; `rattle` reads none. It proves a crate as `rt` does, and writes
nothing of one that is not proved. What `rt` refuses besides, as files that are not laid out, is for the gate.
"""

import os
import subprocess

TOP = os.path.dirname(os.path.dirname(os.path.realpath(__file__)))


def kit():
    """The toolchain's folder; an OSError where there is no `rt` on the path."""
    page = subprocess.run(["rt", "doc"], stdout=subprocess.PIPE, text=True, check=True).stdout.strip()
    return os.path.dirname(page)


def lines_of(text):
    """What each crate of crates.txt stands on, in the order of the file."""
    found = {}
    for line in text.split("\n"):
        name, colon, rest = line.partition("#")[0].partition(":")
        if colon:
            found[name.split()[0]] = rest.split()
    return found


def below_of(lines, wanted):
    """These crates and all of the repository below them, the lowest first; and of each those below it."""
    below, order = {}, []

    def visit(crate):
        if crate in below:
            return
        below[crate] = set()
        for dep in lines[crate]:
            if dep in lines:
                visit(dep)
                below[crate] |= below[dep] | {dep}
        order.append(crate)

    for crate in wanted:
        visit(crate)
    return order, below


def is_program(folder):
    return os.path.isfile(f"{folder}/src/main.rt")


def words(folder, verb, crate, lines, library_of):
    """The words of a call of `rattle` for a crate in a folder, but for what it writes; library_of names the file of a library."""
    at = kit()
    called = [f"{at}/bin/rattle", verb, "--crate-name", crate, "src/main.rt" if is_program(folder) else "src/lib.rt"]
    for dep in ["std", *(dep for dep in lines[crate] if dep not in lines)]:
        called += ["--extern", f"{dep}={at}/rlibs/{dep}.rlib"]
    called += ["-L", f"dependency={at}/rlibs"]
    for dep in below_of(lines, [crate])[0][:-1]:
        called += ["-L", f"dependency={os.path.dirname(library_of(dep))}"]
    for dep in lines[crate]:
        if dep in lines:
            called += ["--extern", f"{dep}={library_of(dep)}"]
    called += ["--antt-project", f"{at}/rattle/logic/antt-project.json", "--logic-built", f"{at}/logic_built"]
    return [*called, "--links", f"{crate}="]


def call(called, folder):
    """Runs it; its status, and what it said."""
    ran = subprocess.run(called, cwd=folder, stdin=subprocess.DEVNULL, stdout=subprocess.PIPE, stderr=subprocess.STDOUT, text=True, errors="replace", check=False)
    return ran.returncode, ran.stdout


def link(at, compiled, to):
    """Links a compiled program."""
    target = ["--target", "x86_64-unknown-linux-gnu", "--toolchain", f"{at}/toolchain", "-o", to]
    return call([f"{at}/bin/rattle-link", *target, compiled, f"{at}/c/libos_c.a", f"{at}/c/liblibc_c.a"], TOP)
