"""A copy of the tracked files, into which one plant at a time is put and taken out again."""
import contextlib
import os
import shutil
import subprocess

from planting.lists import with_changes

ROOT = os.path.dirname(os.path.dirname(os.path.dirname(os.path.dirname(os.path.realpath(__file__)))))


class Copy:
    """A copy of what git has of the tree, as the files are now, and a room beside it for what is built of it."""

    def __init__(self, folder):
        self.at, self.room = f"{folder}/copy", f"{folder}/room"
        os.mkdir(self.room)
        listed = subprocess.run(["git", "ls-files", "-z"], cwd=ROOT, check=True, capture_output=True, text=True).stdout
        for file in filter(lambda it: os.path.lexists(f"{ROOT}/{it}"), listed.split("\0")[:-1]):
            os.makedirs(os.path.dirname(f"{self.at}/{file}"), exist_ok=True)
            shutil.copy(f"{ROOT}/{file}", f"{self.at}/{file}", follow_symlinks=False)

    def text_of(self, file):
        if not os.path.isfile(f"{self.at}/{file}"):
            return ""
        with open(f"{self.at}/{file}", encoding="utf-8", newline="") as it:
            return it.read()

    def write(self, file, text):
        with open(f"{self.at}/{file}", "w", encoding="utf-8", newline="") as it:
            it.write(text)

    @contextlib.contextmanager
    def planted(self, plant):
        """Has the copy hold a plant for a while. The files that it is put into are given."""
        made = with_changes(plant, self.text_of)
        before = {file: self.text_of(file) for file in made}
        try:
            for file, text in made.items():
                self.write(file, text)
            yield [*made]
        finally:
            for file, text in before.items():
                self.write(file, text)
