"""Whose number as a caller it is, before a stolen key is replaced, and what became of the key that it had."""

from __future__ import annotations

from typing import TYPE_CHECKING

from desk_tools import theft
from .ending import WRONG_WORDS, Failure
from .keys import digest_of, key_made_or_in

if TYPE_CHECKING:
    from desk_tools.ops.stolen import Copies


class Owner:
    """The caller who gets another key: the rider, or the driver of the vehicle, whose key was stolen."""

    def __init__(self, copies: Copies, number: int, role: str, subject: int) -> None:
        self.copies, self.number, self.role, self.subject = copies, number, role, subject
        self.digests: set[bytes] = set()

    def check(self) -> None:
        """Refuses the number of anybody else. Nothing is written before this."""
        with self.copies.fresh() as now:
            seen = now or self.copies.before
            if not seen:
                raise Failure(
                    "only a copy of the desk's file shows whose number that is: run this on the desk's machine as "
                    f"root, or name a copy by --backup or --now ({self.copies.why})",
                    WRONG_WORDS,
                )
            callers = theft.callers_in(seen)
        source = "" if now else f" (by the backup {seen}, as no copy of now was to be had)"
        wrong = theft.wrong_caller(callers, self.number, self.role, self.subject)
        if wrong:
            raise Failure(f"{wrong}{source}. Nothing was changed", WRONG_WORDS)
        if source:
            print(f"caller {self.number} is {callers[self.number].told()}{source}")
        self.digests = {callers[self.number].digest}
        before = theft.callers_in(self.copies.before) if self.copies.before else {}
        if self.number in before and before[self.number].is_for(self.role, self.subject):
            self.digests.add(before[self.number].digest)

    def tell(self, new_key: str) -> None:
        """What became of the key that the caller had, as a copy of after the new key shows it, and who else can write."""
        new = digest_of(key_made_or_in(new_key))
        old = self.digests - {new}
        is_shown = self.copies.now is not None and not self.copies.named
        seen = self.copies.now or self.copies.before
        callers = theft.callers_in(seen) if seen else {}
        others = [
            it
            for it in theft.callers_for(callers, self.role, self.subject)
            if it != self.number and callers[it].digest != new
        ]
        if not is_shown:
            print(
                "NOT KNOWN: whether the stolen key is nobody's. A copy of now shows it, on the desk's machine as root "
                f"({self.copies.why})"
            )
        elif not old:
            print(
                f"NOT KNOWN: whether the stolen key is nobody's. Caller {self.number} had the key in {new_key} already"
            )
        elif old & {it.digest for it in callers.values()}:
            raise Failure(
                f"the key that caller {self.number} had still works: a copy of now has it"
            )
        elif others:
            print(f"the key that caller {self.number} had is nobody's")
        else:
            print("the stolen key is nobody's")
        for it in others:
            print(
                f"{callers[it].told()} is caller {it} too, who can also write. Where the key of caller {it} was stolen, say "
                f"the same with --caller {it} and another file for the new key"
            )
