"""The bar of a page: what is said of all answers, in cells, and where sessions begin, by marks."""
from __future__ import annotations

from itertools import count
from typing import Iterator, List, Tuple

from viewing.capture import Exchange
from viewing.lines import kind_of
from viewing.session import Judgement

# How many cells the bar has, where there are so many answers. No cell reaches over a mark: so there may be more.
CELLS = 100
# How many sessions are marked at most: one for two cells. Then the marks, a pixel wide, are seven pixels apart on a
# screen of 360: they are seen one by one, and leave the cells their room. Of more sessions each second one is marked,
# or each fifth, tenth and so on, as on a ruler.
MARKS = CELLS // 2
# A cell without a bad answer has the first of these states that one of its answers has.
ORDER = ("named", "accepted", "says nothing")


def bar(judgement: Judgement) -> Iterator[str]:
    """The whole bar."""
    many = len(judgement.exchanges())
    for numbers, exchanges in stretches(judgement):
        if numbers:
            yield mark(numbers)
        yield from cells(judgement, exchanges, many)


def marked_every(judgement: Judgement) -> int:
    """Of how many sessions one is marked: the least of 1, 2, 5, 10, 20, 50 and so on that makes few enough marks."""
    steps = (digit * 10**power for power in count() for digit in (1, 2, 5))
    return next(step for step in steps if len(judgement.sessions) // step <= MARKS)


def stretches(judgement: Judgement) -> Iterator[Tuple[List[int], List[Exchange]]]:
    """The exchanges, cut where sessions begin that are marked: the numbers of these, more than one if those in front
    have no answer, and what follows up to the next mark."""
    every, numbers, exchanges = marked_every(judgement), [], []
    for session in judgement.sessions:
        if judgement.has_several() and session.number % every == 0:
            if exchanges:
                yield numbers, exchanges
                numbers, exchanges = [], []
            numbers.append(session.number)
        exchanges.extend(session.exchanges)
    yield numbers, exchanges


def mark(numbers: List[int]) -> str:
    """The mark of the sessions that begin there, which leads to the first."""
    text = f"session {numbers[0]}" if len(numbers) == 1 else f"sessions {numbers[0]} to {numbers[-1]}"
    return f'<a class="begin" href="#s{numbers[0]}" title="{text}">{text}</a>'


def cells(judgement: Judgement, all_exchanges: List[Exchange], many: int) -> Iterator[str]:
    """The cells of these exchanges out of so many: one with bad answers leads to the first of them."""
    here = len(all_exchanges)
    cells_here = min(here, -(-here * CELLS // many))
    for cell in range(cells_here):
        exchanges = all_exchanges[cell * here // cells_here : (cell + 1) * here // cells_here]
        bad = [exchange for exchange in exchanges if exchange.place() in judgement.explanation.bad]
        if bad:
            state, place = judgement.state(bad[0]), bad[0].place()
            text = f"{place.called_in()}: {state}" + (f", and {len(bad) - 1} more" if len(bad) > 1 else "")
            yield f'<a class="{kind_of(state)}" href="#{place.identity()}" title="{text}">{text}</a>'
        else:
            states = {judgement.state(exchange) for exchange in exchanges}
            yield f'<i class="{next(kind_of(state) for state in ORDER if state in states)}"></i>'
