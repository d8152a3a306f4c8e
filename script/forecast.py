"""When a build will end, by the processor seconds that each crate was measured to take."""
from sources import TOP, text_of

TABLE = f"{TOP}/docs/seconds.tsv"
# Processor seconds of a crate that the table lacks, and the part of the work that has to be done before the measured speed counts.
UNKNOWN, ENOUGH = 60, 0.1


def table():
    """Returns the seconds of each crate's proof, as script/seconds.py wrote them."""
    lines = [it.split() for it in text_of(TABLE).splitlines() if not it.startswith("#")]
    return {name: int(proof) for name, proof, _ in lines}


class Forecast:
    """The crates in the order in which their proofs are expected to end on these processors, with the moments."""

    def __init__(self, below, processors):
        known = table()
        self.below, self.processors = below, processors
        self.seconds = {it: known.get(it, UNKNOWN) for it in below}

    def whole(self):
        return max(self.ends(set()).values())

    def chains(self):
        """Returns for each crate the seconds of the longest chain of crates that begins with it and goes up."""
        chain = {}
        for name in reversed([*self.below]):
            chain[name] = self.seconds[name] + max((chain[it] for it in chain if name in self.below[it]), default=0)
        return chain

    def ends(self, kept):
        """Returns when each crate is done, in seconds from the beginning: the one with the longest chain above it comes first."""
        chain, at, running, ends = self.chains(), 0, {}, dict.fromkeys(kept, 0)
        left = sorted((it for it in self.below if it not in kept), key=lambda it: -chain[it])
        while left or running:
            for name in [it for it in left if ends.keys() >= {*self.below[it]}][: self.processors - len(running)]:
                left.remove(name)
                running[name] = at + self.seconds[name]
            name = min(running, key=running.get)
            at = ends[name] = running.pop(name)
        return ends

    def left(self, done, kept, elapsed):
        """Returns how many seconds are left, or None if all is done: what is expected, at the speed of what was done since the beginning."""
        ends = self.ends(kept)
        todo = [it for it in self.below if it not in done]
        if not todo:
            return None
        whole = max(ends.values())
        # The moment at which as much work as has been done would have been done.
        work, moment = sum(self.seconds[it] for it in done - kept), 0
        for name in sorted(ends, key=ends.get):
            if name not in kept:
                work -= self.seconds[name]
                if work < 0:
                    break
                moment = ends[name]
        speed = elapsed / moment if moment > ENOUGH * whole else 1
        return max((whole - moment) * speed - (0 if speed != 1 else elapsed - moment), 0)
