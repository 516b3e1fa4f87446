"""Certificates: for every slot the links by which nobody could have admitted or let go more.

``None`` is no limit. A certificate is a named tuple of lists, or of numpy's arrays where
``arrivals`` is such an array.
"""

from __future__ import annotations

from typing import Any, NamedTuple, Optional

from ._library import library
from ._lists import Numbers, all_of, empty, lent, limits, written
from ._questions import Judgement
from ._refused import check


class Certificate(NamedTuple):
    """For slots 1, 2, .. the admitted link's first slot and mark, the departed link's first slot.

    The marks: 1 arrivals, 2 the delay limit, 3 the buffer limit, 0 where no admitted link holds.
    """

    admitted_from: Any
    admitted_by: Any
    departed_from: Any


def certify(
    table: Numbers, delay: Optional[int], buffer: Optional[int], arrivals: Numbers
) -> Certificate:
    """The certificate of our own run of a trace: why nobody could have lost fewer by any slot.

    Every slot has an admitted link where there is no delay limit d, or the trace ends in at least d
    slots without arrivals; else every slot whose deadline lies in the trace.

    >>> certify([0, 2, 3], delay=1, buffer=9, arrivals=[5, 0, 4, 0])
    Certificate(admitted_from=[0, 1, 0, 3], admitted_by=[2, 1, 2, 1], departed_from=[0, 0, 0, 0])

    Refused: 1 to 4 for the table, 6, 7, 23, 10, 8.
    """
    trace = lent("arrivals", arrivals)
    lists = [empty(trace.length, trace) for _ in Certificate._fields]
    check(
        library["certify"](*lent("table", table), *limits(delay, buffer), *trace, *all_of(lists))
    )
    return Certificate(*map(written, lists))


def check_certificate(
    table: Numbers,
    delay: Optional[int],
    buffer: Optional[int],
    arrivals: Numbers,
    admitted: Numbers,
    departed: Numbers,
    admitted_from: Numbers,
    admitted_by: Numbers,
    departed_from: Numbers,
) -> Judgement:
    """Whether anyone's rows and links of a trace are certified, and if not, what fails first.

    Certified rows have lost the fewest that anyone could have by every slot, whatever the trace
    ends in. Else the rule is what ``judge`` says of the rows, 1 to 5, or in the first slot in which
    a link does not hold 6 for the admitted link, before 7 for the departed one.

    >>> trace = dict(table=[0, 2, 3], delay=1, buffer=9, arrivals=[5, 0, 4, 0])
    >>> rows = dict(admitted=[3, 0, 3, 0], departed=[2, 1, 2, 1])
    >>> links = certify(**trace)
    >>> check_certificate(**trace, **rows, **links._asdict())
    Judgement(rule=0, slot=0, window=0)
    >>> rows = dict(admitted=[3, 0, 2, 0], departed=[2, 1, 2, 0])
    >>> check_certificate(**trace, **rows, **links._asdict())
    Judgement(rule=6, slot=3, window=0)

    Refused: 1 to 4 for the table, 6, 7, 23, 10, 11, 8.
    """
    lists = [
        lent("arrivals", arrivals),
        lent("admitted", admitted),
        lent("departed", departed),
        lent("admitted_from", admitted_from),
        lent("admitted_by", admitted_by),
        lent("departed_from", departed_from),
    ]
    said = library["check_certificate"](
        *lent("table", table), *limits(delay, buffer), *all_of(lists)
    )
    check(said.number)
    return Judgement(said.rule, said.slot, said.window)
