"""A small checkout with a toolchain that stands in for the real one: it proves a crate by a word in its source."""

import os
import shutil
import stat
import subprocess
import sys
import tempfile
from pathlib import Path

TOP = Path(__file__).resolve().parents[2]

STAND_IN = '''#!{python}
"""Stands in for the toolchain's command: a crate whose source says WRONG is not proved, one that says SLOW takes long."""
import os, sys, time, types
from pathlib import Path

KIT = str(Path(__file__).resolve().parent / "kit")
{kept}


class Crate:
    def __init__(self, name, deps):
        self.name, self.deps, self.of_kit = name, deps, []
        self.folder = f"{{os.getcwd()}}/crates/{{name}}"
        self.rlib = f"{{self.folder}}/out/rlib/{{name}}.rlib"
        self.is_program = os.path.isfile(f"{{self.folder}}/src/main.rt")

    def below(self):
        return self.deps

    def compile_by(self, backend, words, to):
        with open(f"{{to}}.{{backend}}", "w") as program:
            program.write("#!/bin/sh\\ncat - >/dev/null\\necho ran $*\\n")
        return 0

    def ci(self, flags, tests):
        text = "".join(path.read_text() for path in Path(self.folder).rglob("src/*.rt"))
        with open(os.environ["PROVED"], "a") as log:
            log.write(f"{{self.name}}\\n")
        time.sleep(60 if "SLOW" in text else 0)
        if "WRONG" in text:
            print("the reason")
            return 1
        os.makedirs(os.path.dirname(self.rlib), exist_ok=True)
        Path(self.rlib).write_text(text)
        if self.is_program:
            to = f"{{self.folder}}/out/{{self.name}}"
            self.compile_by("llvm", [], to), self.compile_by("rattle", [], to)
            os.path.isfile(f"{{to}}.rattle") and sys.exit("both compilers")
            os.rename(f"{{to}}.llvm", to)
            os.chmod(to, 0o755)
        return 0


rtlib = types.SimpleNamespace(Crate=Crate)


def main(words):
    crates = {{}}
    for line in Path("crates.txt").read_text().splitlines():
        name, libraries = line.split(":")
        crates[name] = Crate(name, [crates[it] for it in libraries.split()])
    for name, crate in crates.items():
        print(f"== {{name}}")
        if crate.ci([], False):
            print(f"rt: {{name}} NOT PROVED")
            return 1
        print(f"rt: {{name}} proved", flush=True)
    print(f"{{len(crates)}} passed, 0 failed")
    return 0


if __name__ == "__main__":
    given = sys.stdin.read()
    print("tried", *sys.argv[3:], len(given))
    print("run=ended status=4 runners=1 proved=no" if "--bad" not in sys.argv else "a fault", file=sys.stderr)
    sys.exit(0)
'''


class Checkout:
    """Three crates, of which `pide_main` uses `high`, and that `low`; `other` is no part of the program."""

    def __init__(self, is_keeping: bool = True) -> None:
        self._folder = tempfile.TemporaryDirectory()
        self.top = Path(self._folder.name) / "top"
        self.log = Path(self._folder.name) / "proved"
        tools = Path(self._folder.name) / "tools"
        (tools / "kit").mkdir(parents=True)
        (tools / "kit" / "KIT-ID").write_text("stand-in\n")
        rt = tools / "rt"
        rt.write_text(STAND_IN.format(python=sys.executable, kept="Kept = True" if is_keeping else ""))
        rt.chmod(rt.stat().st_mode | stat.S_IXUSR)
        self.top.mkdir()
        for name in ("low", "high", "other"):
            self.write(f"crates/{name}/src/lib.rt", f"//! {name}\nfn f() {{}}\n")
        self.write("crates/pide_main/src/main.rt", "fn main() {}\n")
        self.write("crates.txt", "# crates\nlow:\nhigh: low\nother: low\npide_main: high\n")
        self.write("HANDLES", "Handles allowed: none.\n")
        shutil.copytree(TOP / "launcher", self.top / "launcher", ignore=shutil.ignore_patterns("__pycache__", "tests"))
        shutil.copy(TOP / "pide", self.top / "pide")
        table = "clients/python/pide/statuses.tsv"
        self.write(table, (TOP / table).read_text())
        cache = Path(self._folder.name) / "cache"
        self.environment = {**os.environ, "PATH": f"{tools}:{os.environ['PATH']}", "PROVED": str(self.log),
                            "XDG_CACHE_HOME": str(cache), "TMPDIR": self._folder.name}

    def write(self, path: str, text: str) -> None:
        (self.top / path).parent.mkdir(parents=True, exist_ok=True)
        (self.top / path).write_text(text)

    def start(self, *words: str) -> subprocess.Popen:
        return subprocess.Popen([str(self.top / "pide"), *words], env=self.environment, text=True,
                                stdin=subprocess.PIPE, stdout=subprocess.PIPE, stderr=subprocess.PIPE)

    def run(self, *words: str, given: str = "") -> "tuple[int, str, str]":
        """The exit status, the output, and what is said on standard error."""
        running = self.start(*words)
        output, errors = running.communicate(given, timeout=60)
        return running.returncode, output, errors

    def proved(self) -> "list[str]":
        """The crates that were proved since the last call."""
        found = self.log.read_text().split() if self.log.exists() else []
        self.log.write_text("")
        return found

    def close(self) -> None:
        self._folder.cleanup()
