"""The crates of the repository, and how the kit is asked to prove them, for the tools in this folder."""
import os
import re
import shutil
import subprocess
import sys

TOP = os.path.realpath(os.path.join(os.path.dirname(os.path.realpath(__file__)), ".."))


def kit():
    """The folder of the Rattle kit whose rt is on the PATH."""
    found = shutil.which("rt")
    if not found:
        sys.exit(f"{os.path.basename(sys.argv[0])}: no rt on the PATH")
    return os.path.dirname(os.path.dirname(os.path.realpath(found)))


def table():
    """Each crate of crates.txt with the libraries that it uses."""
    with open(f"{TOP}/crates.txt", encoding="utf-8") as lines:
        rows = [re.match(r"(\w+)[^:]*:(.*)", line.partition("#")[0]) for line in lines]
    return {row[1]: row[2].split() for row in rows if row}


def below(uses, *names):
    """The crates on which these stand, directly or not, with them, each behind those on which it stands."""
    found = {}

    def add(name):
        if name in uses and name not in found:
            for it in uses[name]:
                add(it)
            found[name] = None

    for name in names:
        add(name)
    return list(found)


def copy(room, names):
    """Copies these crates alone into a folder, without must-fail edits."""
    shutil.copy(f"{TOP}/HANDLES", room)
    with open(f"{TOP}/crates.txt", encoding="utf-8") as lines, open(f"{room}/crates.txt", "w", encoding="utf-8") as file:
        file.writelines(line for line in lines if re.match(r"\w*", line)[0] in names)
    for name in names:
        shutil.copytree(f"{TOP}/crates/{name}", f"{room}/crates/{name}", ignore=shutil.ignore_patterns("out", "must-fail"))


def prove(room):
    """Proves the crates of a copy, but for what was proved before on this machine, and leaves their libraries there. What was said
    is the answer where that fails, else None."""
    ran = subprocess.run(["rt", "ci"], cwd=room, stdin=subprocess.DEVNULL, stdout=subprocess.PIPE, stderr=subprocess.STDOUT, text=True)
    return ran.stdout if ran.returncode else None


def rattle(verb, room, uses, crate):
    """The words of the kit's command for a crate over the proved libraries of a copy; it is called in the crate's folder."""
    at = kit()
    library = lambda name: f"{room}/crates/{name}/out/rlib" if name in uses else f"{at}/rlibs"
    root = "src/main.rt" if os.path.exists(f"{room}/crates/{crate}/src/main.rt") else "src/lib.rt"
    words = [f"{at}/bin/rattle", verb, "--crate-name", crate, root]
    for name in ["std", *uses[crate]]:
        words += ["--extern", f"{name}={library(name)}/{name}.rlib"]
    for folder in [f"{at}/rlibs", *map(library, below(uses, *uses[crate]))]:
        words += ["-L", f"dependency={folder}"]
    words += ["--antt-project", f"{at}/rattle/logic/antt-project.json", "--logic-built", f"{at}/logic_built", "--links", f"{crate}="]
    return words
