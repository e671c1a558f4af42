"""Wrong bodies: what tools/bite, tools/promises and tools/refusals share."""

import contextlib
import shutil
import tempfile
from pathlib import Path

TOP = Path(__file__).resolve().parent.parent


@contextlib.contextmanager
def copied():
    """A copy of the checkout, without what was made there, which is removed at the end."""
    with tempfile.TemporaryDirectory() as room:
        made = shutil.ignore_patterns(".git", ".build", "out", "dist")
        yield Path(shutil.copytree(TOP, Path(room) / "copy", symlinks=True, ignore=made))


def crate_of(path):
    """The crate of crates/CRATE/must-fail/FUNCTION.NAME.edit or tools/bodies/CRATE.FUNCTION.NAME.edit."""
    return path.parents[1].name if path.parent.name == "must-fail" else path.name.split(".")[0]


def note(path, word):
    """What a comment of the edit says behind the word, or None."""
    lines = path.read_text().splitlines()
    return next((line.partition(": ")[2] for line in lines if line.startswith(f"# {word}: ")), None)


def edited(folder, path):
    """The texts of the crate in the folder that the edit changes, by their files, as it leaves them."""
    texts = {}
    for line in path.read_text().splitlines():
        word, _, value = line.partition(":")
        value = value[1:]
        if word == "file":
            file = folder / value
            texts.setdefault(file, file.read_text())
        elif word == "old":
            old = value
            if texts[file].count(old) != 1:
                raise ValueError(f"not once in {file.relative_to(folder)}: {old.strip()}")
        elif word == "new":
            texts[file] = texts[file].replace(old, value)
    return texts


@contextlib.contextmanager
def applied(copy, path):
    """Applies an edit to the copy, and takes it back at the end."""
    texts = edited(copy / "crates" / crate_of(path), path)
    before = {path: path.read_text() for path in texts}
    try:
        for path, text in texts.items():
            path.write_text(text)
        yield
    finally:
        for path, text in before.items():
            path.write_text(text)
