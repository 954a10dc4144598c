"""Fintaqush for Python: the packet polling core of Linux 6.6 (NAPI) and byte queue limits, by the shared C library.

Names, results and errors are those of include/fintaqush.h, without FQ_. Each call holds the interpreter's lock, so threads may
share an object; during a run only the run may use its list. `replay` and `machine` release the lock.
"""
from ._abi import VERSION, DeviceState, Kind, Next, Rearm, Status, What, Word
from ._driver import Cards, DeviceShown, Driver, Todo
from ._faults import ArrivalsFault, Fault, SettingFault, TraceFault
from ._machine import Application, MachineReport, Processor, Queue, Times, Waits, machine
from ._objects import Counts, Dql, List, Packet, PlaceIn, PlaceOut, Ring, RunReport, SerialNapi, TxRing, TxState, place_ring
from ._report import Device, Report, Transmit, Turn, raise_runs, replay
from ._shared import Answers, Caller, Control, Input, shared

__version__ = VERSION
__all__ = ["Answers", "Application", "ArrivalsFault", "Caller", "Cards", "Control", "Counts", "Device", "DeviceShown",
           "DeviceState", "Dql", "Driver", "Fault", "Input", "Kind", "List", "MachineReport", "Next", "Packet",
           "PlaceIn", "PlaceOut", "Processor", "Queue", "Rearm", "Report", "Ring", "RunReport", "SerialNapi", "SettingFault", "Status", "Times",
           "Todo", "TraceFault", "Transmit", "Turn", "TxRing", "TxState", "Waits", "What", "Word", "machine",
           "place_ring", "raise_runs", "replay", "shared"]
