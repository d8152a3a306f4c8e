"""Many questions side by side, with a bar that says how far they are."""
import concurrent.futures
import os
import sys
import time
from typing import Callable, Iterable, List, Optional, TypeVar, Union

from .ends import NoAnswer

Case = TypeVar("Case")
Answer = TypeVar("Answer")
WIDTH, BETWEEN = 30, 0.5


class Bar:
    """A line at the end of a terminal: how many questions are answered, and about how long the others take."""

    def __init__(self, count: int, is_shown: bool):
        self.count, self.done, self.is_shown = count, 0, is_shown
        self.started, self.shown = time.monotonic(), 0.0

    def add(self) -> None:
        self.done += 1
        now = time.monotonic()
        if self.is_shown and (now - self.shown >= BETWEEN or self.done == self.count):
            self.shown = now
            part = self.done * WIDTH // self.count
            left = (now - self.started) / self.done * (self.count - self.done)
            sys.stderr.write(f"\r\033[K[{'#' * part}{'.' * (WIDTH - part)}] {self.done} of {self.count}, {now - self.started:.0f} s, about {left:.0f} s left")
            sys.stderr.flush()

    def end(self) -> None:
        if self.is_shown and self.shown:
            sys.stderr.write("\n")


def many(question: Callable[[Case], Answer], cases: Iterable[Case], workers: Optional[int] = None, bar: Optional[bool] = None) -> List[Union[Answer, NoAnswer]]:
    """Returns the answers to the question for each case, in the order of the cases, or the end, as an instance of its class, for a case that has no
    answer. As many are asked at a time as there are processors, or `workers`. The bar is shown at a terminal, or if `bar` is true.

    >>> many(lambda it: decide(it, 1, seconds=60), positions)
    [True, OverBudget('over budget at moves 1 ply 0 men 31 part image at 3'), False]
    """
    listed = list(cases)
    shown = Bar(len(listed), sys.stderr is not None and sys.stderr.isatty() if bar is None else bar)

    def asked(case: Case) -> Union[Answer, NoAnswer]:
        try:
            return question(case)
        except NoAnswer as end:
            return end

    pool = concurrent.futures.ThreadPoolExecutor(workers or len(os.sched_getaffinity(0)))
    try:
        futures = [pool.submit(asked, it) for it in listed]
        for it in concurrent.futures.as_completed(futures):
            shown.add()
        return [it.result() for it in futures]
    finally:
        # After an interrupt no further question is asked.
        pool.shutdown(wait=False, cancel_futures=True)
        shown.end()
