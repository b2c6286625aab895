"""The table of standing orders: weekly trips of riders, a line for each, as docs/STANDING-ORDERS.md has it."""

from __future__ import annotations

import collections
import datetime
from typing import Any, TYPE_CHECKING

from desk_tools.setup import tables
from desk_tools.standing_orders.plan import BY

if TYPE_CHECKING:
    from desk_tools.standing_orders.plan import Request

COLUMNS = tables.COLUMNS["orders"]


class Order:
    """One standing order. `key` tells its trips from those of others, also in later nights."""

    def __init__(self, line: int, fields: dict[str, Any]) -> None:
        self.line = line
        self.weekdays: frozenset[int] = frozenset(fields["weekdays"])
        self.skipped: frozenset[str] = fields["skip_days"]
        self.first: str = fields["first_day"]
        self.last: str = fields["last_day"]
        self.rider: int = fields["rider"]
        self.wish: int = fields["wish"]
        self.origin: int = fields["from"]
        self.goal: int = fields["to"]
        self.by: int | None = fields["by"]
        self.mode: str = fields["mode"]
        self.asked = {it: fields[it] for it in ("rider", "from", "to", "attendant", "companions")}
        self.name = f"order {fields['order']}" if fields["order"] else f"line {line}"
        self.key: str = (
            fields["order"]
            or f"rider {self.rider} at {self.wish} from {self.origin} to {self.goal}"
        )

    def is_on(self, day: datetime.date) -> bool:
        """Whether the order has a trip on this day."""
        text = day.isoformat()
        return (
            day.isoweekday() in self.weekdays
            and self.first <= text <= self.last
            and text not in self.skipped
        )

    def body(self, day: datetime.date, request: Request) -> dict[str, Any]:
        """What a request of the plan asks of the desk."""
        by = {} if request.by is None else {"by": request.by}
        return {**self.asked, "wish": request.wish, **by, "day": day.isoformat()}

    def meets(self, other: Order) -> bool:
        """Whether two orders have a weekday and a span of days in common."""
        return bool(
            self.weekdays & other.weekdays and self.first <= other.last and other.first <= self.last
        )


def orders_in(path: str) -> tuple[list[Order], list[Any], list[str]]:
    """The orders of a table, what is wrong in other lines, and notes on how the table was read."""
    sheet = tables.sheet_of(path, COLUMNS)
    orders: list[Order] = []
    named: dict[str, list[Order]] = {}
    forms = collections.Counter[tuple[str, str]]()
    faults = [(it.number, it.reason) for it in sheet.refused]
    for line, fields in ((it.number, it.fields) for it in sheet.rows):
        try:
            order = order_of(line, fields)
            there = next(
                (it for it in named.get(order.key, []) if fields.get("order") or it.meets(order)),
                None,
            )
            if there:
                raise ValueError(
                    f"order {order.key!r} stands in line {there.line} already"
                    if fields.get("order")
                    else f"it is the same trip as line {there.line}"
                )
            named.setdefault(order.key, []).append(order)
            orders.append(order)
            forms.update(tables.forms_in(COLUMNS, fields))
        except ValueError as error:
            faults.append((line, str(error)))
    unread = [f"the column {it} is not read" for it in sheet.header if it not in COLUMNS]
    told = [(f"line {line} of {path}", said) for line, said in sorted(faults)]
    return orders, told, [*unread, *sheet.notes, *tables.notes_of(forms)]


def order_of(line: int, fields: dict[str, str]) -> Order:
    order = Order(
        line, {name: tables.value_of(name, column, fields) for name, column in COLUMNS.items()}
    )
    if order.first > order.last:
        raise ValueError("its last day is before its first")
    if not order.weekdays:
        raise ValueError("weekdays is missing")
    if order.mode == BY and order.by is None:
        raise ValueError("by is missing, and mode is by")
    return order


def days_of(today: datetime.date, ahead: int) -> list[datetime.date]:
    """The days that may be booked today."""
    return [today + datetime.timedelta(days=it) for it in range(1, ahead + 1)]
