"""A client of one `facets --live` process, for any number of threads.

    facets = Facets(["facets", "--live", "shop.store"], {"cmd": "config"})
    facets.ask({"cmd": "search", "query": {"words": "hammer"}})
"""

import json
import subprocess
import threading


class Ended(Exception):
    """The process has ended: its exit status, and the replies that came before."""


class Facets:
    def __init__(self, command, config):
        self.process = subprocess.Popen(command, stdin=subprocess.PIPE, stdout=subprocess.PIPE)
        self.lock = threading.Lock()
        self.opened = self._exchange([config], 1)[0]
        if "opened" not in self.opened:
            raise Ended(self.process.wait(), [self.opened])

    def ask(self, command, session=1):
        """Returns the reply. It has the key `fault` if the command is not valid."""
        return self._exchange([{"s": session, **command}], 1)[0]

    def group(self, commands):
        """Carries out commands, whose sessions run concurrently. Returns their replies in the same order."""
        replies = self._exchange([{"cmd": "group"}, *commands, {"cmd": "phase"}], len(commands))
        return sorted(replies, key=lambda reply: reply["line"])

    def close(self):
        """Ends the process. Returns its exit status."""
        with self.lock:
            self.process.communicate()
        return self.process.returncode

    def _exchange(self, lines, count):
        with self.lock:
            if self.process.returncode is not None:
                raise Ended(self.process.returncode, [])
            try:
                self.process.stdin.write(b"".join(json.dumps(line).encode() + b"\n" for line in lines))
                self.process.stdin.flush()
            except OSError:
                pass  # It has ended. The replies that are missing show it.
            replies = [json.loads(line) for line in map(lambda _: self.process.stdout.readline(), range(count)) if line.endswith(b"\n")]
        if len(replies) < count:
            raise Ended(self.process.wait(), replies)
        return replies
