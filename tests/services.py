"""A `systemctl` for scripts that stop and start a room: it asks the test that runs them, which does
so and answers."""
import contextlib
import os
import threading

# Each word of a script stands in one pipe, and in the other what came of it.
SYSTEMCTL = """#!/bin/sh
echo "$1" >{folder}/asked && read -r answer <{folder}/answered && [ "$answer" = done ]
"""


class Systemctl:
    """A folder for the PATH, in which `systemctl stop` and `systemctl start` do what is given."""

    def __init__(self, folder, start, stop):
        self.folder, self.acts, self.asked = folder, {'start': start, 'stop': stop}, []
        folder.mkdir()
        for name in 'asked', 'answered':
            os.mkfifo(folder / name)
        (folder / 'systemctl').write_text(SYSTEMCTL.format(folder=folder))
        (folder / 'systemctl').chmod(0o755)
        threading.Thread(target=self.answer, daemon=True).start()

    def answer(self):
        """Does what is asked, until the test ends and its folder is gone."""
        with contextlib.suppress(FileNotFoundError):
            while True:
                word = (self.folder / 'asked').read_text().strip()
                self.asked.append(word)
                done = self.acts[word]()
                (self.folder / 'answered').write_text('done\n' if done else 'failed\n')
