#!/usr/bin/env python3
"""Tries the hosts that must not build: crates/embedding with each edit of its folder not-built.

An edit has lines 'file:', 'old:' and 'new:' as those of must-fail, and a line 'says:' with the error that has to refuse it. The gate counts
an edit that does not compile for nothing, so these stand in a folder of their own. Each becomes a module of its own beside the host, in a copy
of the repository's sources; nothing is proved, since these errors come before any proof. The last line is 'N refused, M not'.
"""

import os
import re
import shutil
import subprocess
import sys
import tempfile

TOP = os.path.dirname(os.path.dirname(os.path.abspath(__file__)))
HOST = os.path.join(TOP, "crates", "embedding")
EDITS = os.path.join(HOST, "not-built")


class Host:
    """The host with an edit, as a module."""

    def __init__(self, edit):
        self.name = edit[: -len(".edit")]
        self.module = self.name.replace("-", "_")
        with open(os.path.join(EDITS, edit), encoding="utf-8") as lines:
            said = dict(re.match(r"(\w+): ?(.*)\n?", line).groups() for line in lines if line.strip())
        self.error = said["says"]
        with open(os.path.join(HOST, said["file"]), encoding="utf-8") as it:
            text = it.read()
        if text.count(said["old"]) != 1:
            sys.exit(f"{edit}: its old text is there {text.count(said['old'])} times")
        self.text = text.replace(said["old"], said["new"])

    def refusal(self, lines):
        """The first error in the module."""
        return next((it for it in lines if it.startswith(f"src/{self.module}.rt:") and "error[" in it), None)


def sources(top):
    """A copy of the repository's sources, without what the toolchain made."""
    os.mkdir(os.path.join(top, ".git"))
    shutil.copy(os.path.join(TOP, "crates.txt"), top)
    shutil.copytree(os.path.join(TOP, "crates"), os.path.join(top, "crates"), ignore=shutil.ignore_patterns("out", "proofs", "must-fail"))
    return os.path.join(top, "crates", "embedding")


def tried(folder, main, hosts):
    """The lines that a build of the crate says with these hosts as modules."""
    for host in hosts:
        with open(os.path.join(folder, "src", f"{host.module}.rt"), "w", encoding="utf-8") as it:
            it.write(host.text)
    with open(os.path.join(folder, "src", "main.rt"), "w", encoding="utf-8") as it:
        it.write(main.replace("mod hosting;", "".join(f"mod {host.module};\n" for host in hosts) + "mod hosting;"))
    ran = subprocess.run(["rt", "try"], cwd=folder, stdin=subprocess.DEVNULL, capture_output=True, text=True)
    for host in hosts:
        os.remove(os.path.join(folder, "src", f"{host.module}.rt"))
    return (ran.stdout + ran.stderr).splitlines()


def main():
    left = [Host(it) for it in sorted(os.listdir(EDITS)) if it.endswith(".edit")]
    refused, wrong = 0, 0
    with open(os.path.join(HOST, "src", "main.rt"), encoding="utf-8") as it:
        text = it.read()
    with tempfile.TemporaryDirectory() as top:
        folder = sources(top)
        # an error of an earlier stage hides those of later ones, so what is refused is taken out and the others are tried again
        while left:
            lines = tried(folder, text, left)
            said = [(host, host.refusal(lines)) for host in left]
            seen = [(host, line) for host, line in said if line]
            if not seen:
                break
            for host, line in seen:
                is_due = f"error[{host.error}]" in line
                refused, wrong = refused + is_due, wrong + (not is_due)
                print(f"{host.name}: {'refused' if is_due else 'REFUSED OTHERWISE'}: {line[line.index('error['):][:120]}", flush=True)
            left = [host for host, line in said if not line]
    for host in left:
        print(f"{host.name}: NOT REFUSED")
    print(f"{refused} refused, {wrong + len(left)} not")
    return 1 if wrong or left else 0


if __name__ == "__main__":
    sys.exit(main())
