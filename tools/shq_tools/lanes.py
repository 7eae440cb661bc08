"""Work that is done side by side, each piece once those are done that it stands on."""
from concurrent.futures import FIRST_COMPLETED, ThreadPoolExecutor, wait


def behind(names, below, weights):
    """How much work waits for each name, with its own, along the longest chain. `below` has all that it stands on."""
    found = {}
    for name in sorted(names, key=lambda it: -len(below[it])):
        above = [found[it] for it in found if name in below[it]]
        found[name] = weights[name] + max(above, default=0)
    return found


class Lanes:
    """Does a piece of work for each name, some at once, first those for which most other work waits.

    `work` is called with a name and answers a status: 0 where it went well. Where it is below 0 the work was killed,
    most likely for memory, and is done once more with nothing beside it. Nothing new begins once a piece has failed.
    """

    def __init__(self, below, weights, at_once, work):
        self.below = below
        self.at_once = at_once
        self.work = work
        order = behind(list(below), below, weights)
        self.left = sorted(below, key=lambda it: -order[it])
        self.done = set()
        self.killed = []
        self.failed = []
        self.running = {}

    def ready(self):
        """The names whose work can begin now."""
        if self.failed:
            return []
        if self.killed and self.killed[-1] in self.left:
            return [] if self.running else [self.killed[-1]]
        found = [it for it in self.left if self.below[it] <= self.done]
        return found[: self.at_once - len(self.running)]

    def end(self, name, status):
        """Notes how the work for a name ended."""
        if status == 0:
            self.done.add(name)
        elif status < 0 and name not in self.killed:
            self.killed.append(name)
            self.left.insert(0, name)
        else:
            self.failed.append(name)

    def run(self):
        """Does all of it, and returns the names whose work failed."""
        with ThreadPoolExecutor(self.at_once) as pool:
            while True:
                for name in self.ready():
                    self.left.remove(name)
                    self.running[pool.submit(self.work, name)] = name
                if not self.running:
                    return self.failed
                for ended in wait(self.running, return_when=FIRST_COMPLETED).done:
                    self.end(self.running.pop(ended), ended.result())
