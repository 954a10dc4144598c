"""Limits for scripts and CI: `--fail-if 'p99>200us'` sets exit status 3 if a result exceeds the limit."""

from __future__ import annotations

import functools
import operator
import re
from collections.abc import Mapping, Sequence
from decimal import Decimal
from typing import Any, NamedTuple

from fintaqush_tools.options import Parser, wrong
from fintaqush_tools.progress import say
from fintaqush_tools.texts import shown

FAILED = 3  # the exit status
SIGNS = {">=": operator.ge, "<=": operator.le, "==": operator.eq, "!=": operator.ne, ">": operator.gt, "<": operator.lt}
UNITS = {"ns": 1, "us": 1000, "ms": 10**6, "s": 10**9}  # in ns, the unit of results
CONDITION = re.compile(rf"([a-z]\w*) *({'|'.join(SIGNS)}) *([+-]?)(\d{{1,15}}(?:\.\d{{1,9}})?) *({'|'.join(UNITS)}|%)?")


Values = Mapping[str, Any]
Result = tuple[str, Values]  # its name, and its values
NONE: Values = {}


class Condition(NamedTuple):
    """A limit. A relative one, which is written with a sign, is for the change of a value: in %, or in the value's unit."""

    text: str
    name: str
    sign: str
    limit: Decimal
    unit: str
    is_relative: bool = False

    def value(self, values: Values, before: Values = NONE) -> Decimal:
        """Returns the value, or its change, in the condition's unit."""
        value, base = Decimal(str(values[self.name])), Decimal(str(before.get(self.name, 0)))
        change = value - base if self.is_relative else value
        if self.is_relative and self.unit == "%":
            return 100 * change / abs(base) if base else change * Decimal("Infinity") if change else change
        return change / UNITS.get(self.unit, 1)

    def holds(self, values: Values, before: Values = NONE) -> bool:
        return bool(SIGNS[self.sign](self.value(values, before), self.limit))

    def told(self, values: Values, before: Values) -> str:
        value, unit = self.value(values, before), f" {self.unit}" * bool(self.unit)
        return f"{self.name} changed by {value:+.1f}{unit}" if self.is_relative else f"{self.name} is {value}{unit}"


def parsed(text: str, example: str) -> Condition:
    """Parses a condition. A value with an unit of time is in ns."""
    found = CONDITION.fullmatch(text.strip())
    if not found:
        raise wrong(text, f"a condition as {example}")
    name, sign, side, limit, unit = found.groups()
    return Condition(text.strip(), name, sign, Decimal(side + limit), unit or "", bool(side))


def condition_of(text: str, names: Sequence[str], times: Sequence[str] = (), example: str = "'dropped>0'") -> Condition:
    """Parses a condition for results with these names; `times` are those in ns."""
    condition = parsed(text, example)
    if condition.is_relative:
        raise wrong(text, "a limit for one result; fintaqush compare has those for the change between two")
    if condition.name not in names:
        raise wrong(text, f"of a result; these are: {' '.join(names)}")
    units = "%" if condition.name.endswith("_percent") else "ns, us, ms or s" if condition.name in times else "none"
    if condition.unit == "%" and units != "%" or condition.unit in UNITS and condition.name not in times:
        raise wrong(text, f"in the unit of {condition.name}, which is {units}")
    return condition._replace(unit=condition.unit or "ns" * (condition.name in times))


def add_fail_if(parser: Parser, names: Sequence[str], times: Sequence[str] = ()) -> None:
    """Adds the option, for results with these names; `times` are those in ns."""
    example = "'dropped>0'" + (f" or '{next(iter(times))}>200us'" if times else "")
    read = functools.partial(condition_of, names=names, times=times, example=example)
    add_condition(parser, read, f"for a result, as {example}")


def add_fail_if_changed(parser: Parser) -> None:
    """Adds the option, for the changes between two results."""

    def read(text: str) -> Condition:
        condition = parsed(text, "'p99>+10%'")
        if condition.unit == "%" and not condition.is_relative and not condition.name.endswith("_percent"):
            raise wrong(text, f"a limit of {condition.name}; one for its change has a sign, as 'p99>+10%'")
        return condition

    when = "for a change of more than its noise, as 'p99>+10%', or for a value after, as 'p99>200us'"
    add_condition(parser, read, when)


def add_condition(parser: Parser, read: Any, when: str) -> None:
    what = f"exit with status {FAILED} if the condition holds {when.replace('%', '%%')}; may be given many times"
    parser.many("--fail-if", "CONDITION", what, type=read)


def status_of(conditions: Sequence[Condition], results: Sequence[Result], before: Sequence[Values] = ()) -> int:
    """Returns the exit status for results (name, values), and prints a line for each condition that holds, with the first such result.
    `before` has the values that relative limits compare each of them with."""
    status = 0
    pairs = list(zip(results, before or [NONE] * len(results)))
    for condition in conditions:
        known = [(which, values, old) for (which, values), old in pairs if condition.name in values]
        held = [(which, condition.told(values, old)) for which, values, old in known if condition.holds(values, old)]
        if held:
            (which, told), status = held[0], FAILED
            more = f", and so for {len(held) - 1} more" if len(held) > 1 else ""
            say(f"--fail-if '{condition.text}': {told}{f' with {shown(which)}' if which else ''}{more}")
    return status
