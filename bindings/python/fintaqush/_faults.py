"""The exceptions of calls that fail."""

from __future__ import annotations

from ._abi import FAULTS, Status


class Fault(ValueError):
    """A call failed. `status` says why, and the text is its name in the header."""

    def __init__(self, status: Status, *more: int | str) -> None:
        super().__init__(status, *more)  # the arguments from which unpickling makes it again
        self.status = status

    def __str__(self) -> str:
        return f"FQ_{self.status.name}"

    @property
    def message(self) -> str:
        """The message of the status."""
        from . import _library  # which raises this

        return _library.message(self.status)


class TraceFault(Fault):
    """A trace can't be replayed: the error's number, its name, and the row that it names, as described in docs/FORMATS.md."""

    def __init__(self, status: Status, number: int, row: int) -> None:
        super().__init__(status, number, row)
        self.number, self.name, self.row = number, FAULTS.get(number, "?"), row

    def __str__(self) -> str:
        return f"trace fault {self.number} {self.name} row {self.row}"


class ArrivalsFault(Fault):
    """Bytes aren't arrivals: the error's number, and the row that it names, as described in docs/FORMATS.md; the text is the message of
    napi_machine."""

    def __init__(self, status: Status, number: int, row: int, text: str) -> None:
        super().__init__(status, number, row, text)
        self.number, self.row, self.text = number, row, text

    def __str__(self) -> str:
        return self.text


class SettingFault(Fault):
    """A setting of the machine is out of its range, or excludes another: its name."""

    def __init__(self, status: Status, name: str) -> None:
        super().__init__(status, name)
        self.name = name

    def __str__(self) -> str:
        return f"FQ_BAD_SETTING: {self.name}"
