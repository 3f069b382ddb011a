"""Patches of docs/changes: the files that each changes, by groups, and whether it applies."""
from __future__ import annotations

import os
import re
import shutil
import subprocess
from dataclasses import dataclass

TOP = os.path.dirname(os.path.dirname(os.path.dirname(os.path.realpath(__file__))))
FOLDER = f"{TOP}/docs/changes"
# Groups of files, by what their paths begin with or are; a file is of the first that fits, and of the program where none does.
PROGRAM = "program"
GROUPS = {
    "tools/second": r"tools/second/",
    "pages": r"docs/|.*\.md$",
    "tests": r"crates/(?:ksv_rows|ksv_examples|ksv_test_|ksv_refusals)|crates/\w+/must-fail/|edits/|examples/|\.ci/",
}
# Folders of a crate whose files are proved.
PROVED = r"crates/(\w+)/(?:src|specs|proofs)/"


@dataclass(frozen=True)
class File:
    """A file that a patch changes, with the lines that it adds to it and takes from it."""

    path: str
    added: int
    removed: int

    def group(self) -> str:
        """The group that the file is of."""
        return next((name for name, pattern in GROUPS.items() if re.match(pattern, self.path)), PROGRAM)


@dataclass(frozen=True)
class Patch:
    """A patch: its name, and the files that it changes; `why`: why it is none, if so."""

    name: str
    files: tuple[File, ...]
    why: str = ""

    def path(self) -> str:
        """Where it is."""
        return f"{FOLDER}/{self.name}.patch"

    def of(self, group: str) -> list[File]:
        """Its files of a group."""
        return [it for it in self.files if it.group() == group]

    def crates(self, has_tests: bool) -> list[str]:
        """The crates that it changes in what is proved, those of tests too where they are wanted."""
        groups = (PROGRAM, "tests") if has_tests else (PROGRAM,)
        found = (re.match(PROVED, it.path) for it in self.files if it.group() in groups)
        return sorted({it[1] for it in found if it})

    def tables(self) -> dict[str, list[str]]:
        """The tables of rows that it changes, by their crates."""
        found: dict[str, list[str]] = {}
        for it in self.files:
            table = re.match(r"crates/(ksv_rows)/(data/\w+\.txt)$", it.path)
            if table:
                found.setdefault(table[1], []).append(table[2])
        return found

    def told(self) -> str:
        """How many files and lines it has, by groups and in all."""
        some = [f"{name}: {counted(self.of(name))}" for name in (PROGRAM, *reversed(GROUPS))]
        return f"{'; '.join(some)}; in all {counted(list(self.files))}"


def counted(files: list[File]) -> str:
    """How many files these are, and their lines."""
    return f"{len(files)} files, {sum(it.added for it in files)} lines more and {sum(it.removed for it in files)} less"


def git(folder: str, *words: str) -> subprocess.CompletedProcess[str]:
    """What `git apply` says in a folder, which need be no clone."""
    settings = {**os.environ, "GIT_CEILING_DIRECTORIES": os.path.dirname(folder), "LC_ALL": "C"}
    how = {"stdin": subprocess.DEVNULL, "stdout": subprocess.PIPE, "stderr": subprocess.STDOUT, "text": True}
    return subprocess.run(["git", "apply", *words], cwd=folder, env=settings, check=False, **how)


def names() -> list[str]:
    """The names of all patches."""
    return sorted(it[: -len(".patch")] for it in os.listdir(FOLDER) if it.endswith(".patch"))


def patch_of(name: str) -> Patch:
    """The patch of a name."""
    said = git(TOP, "--numstat", "-z", f"{FOLDER}/{name}.patch")
    if said.returncode:
        return Patch(name, (), said.stdout.strip())
    rows = (row.split("\t") for row in said.stdout.split("\0") if row)
    # what isn't text has `-` for its lines
    return Patch(name, tuple(File(path, *(int(it) if it.isdigit() else 0 for it in lines)) for *lines, path in rows))


def unfit(patch: Patch) -> str:
    """Why a patch doesn't apply to this repository; empty where it does."""
    said = git(TOP, "--check", patch.path())
    return said.stdout.strip() or "git apply refuses it" if said.returncode else ""


def copied(patch: Patch, room: str) -> str:
    """Copies the repository without what was made, and applies a patch to the copy; why that can't be, empty where it can."""
    shutil.copytree(TOP, room, ignore=shutil.ignore_patterns(".git", "out", "__pycache__"))
    said = git(room, patch.path())
    return said.stdout.strip() or "git apply refuses it" if said.returncode else ""
