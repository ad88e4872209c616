"""The library by ctypes: what wakhurmi.h declares, where the library is found, and numbers and times as its functions take them."""

from __future__ import annotations

import ctypes
import os
import pathlib
from typing import Any, Dict, Tuple

from ._errors import BadNumber

# What else the library says is next: nothing, as all tasks have ended; and, behind another answer than OK, that a unit is closed.
_ENDED, _CLOSED = 4, 5
_LARGEST = 2**32 - 1
_NONE = _LARGEST


class _Time(ctypes.Structure):
    """A struct timespec."""

    _fields_ = [("seconds", ctypes.c_long), ("nanoseconds", ctypes.c_long)]


class _Options(ctypes.Structure):
    """A wakhurmi_options."""

    _fields_ = [
        ("size", ctypes.c_size_t),
        ("workers", ctypes.c_uint32),
        ("max_leases", ctypes.c_uint32),
        ("locks", ctypes.c_uint32),
        ("all_projects", ctypes.c_bool),
        ("drops_history", ctypes.c_bool),
        ("kept_entries", ctypes.c_uint64),
        ("maxima", ctypes.POINTER(ctypes.c_uint32)),
        ("services", ctypes.c_size_t),
    ]


class _Work(ctypes.Structure):
    """A struct wakhurmi_work."""

    _fields_ = [("what", ctypes.c_uint32), ("task", ctypes.c_uint32), ("action", ctypes.c_uint32), ("item", ctypes.c_uint32), ("passed", ctypes.c_bool)]


# What the functions of the header take. All but the three that close answer by a number.
_POINTER, _NUMBER, _SIZE = ctypes.c_void_p, ctypes.c_uint32, ctypes.c_size_t
_TO_POINTER, _TO_NUMBER, _TO_TIME = ctypes.POINTER(_POINTER), ctypes.POINTER(_NUMBER), ctypes.POINTER(_Time)
_TO_OPTIONS, _TO_WORK, _TO_ENUM = ctypes.POINTER(_Options), ctypes.POINTER(_Work), ctypes.POINTER(ctypes.c_uint)
_LOCKS = (_TO_NUMBER, _SIZE)
_TEXT = (ctypes.POINTER(ctypes.c_uint64), ctypes.c_char_p, _SIZE, ctypes.POINTER(_SIZE))
_SIGNATURES: Dict[str, Tuple[Any, ...]] = {
    "wakhurmi_open": (_NUMBER, _NUMBER, _NUMBER, _TO_POINTER),
    "wakhurmi_open_keeping": (_NUMBER, _NUMBER, _NUMBER, ctypes.c_uint64, _TO_POINTER),
    "wakhurmi_open_with": (_TO_OPTIONS, _TO_POINTER),
    "wakhurmi_take": (_POINTER, _NUMBER, *_LOCKS),
    "wakhurmi_take_until": (_POINTER, _NUMBER, *_LOCKS, _TO_TIME),
    "wakhurmi_try_take": (_POINTER, _NUMBER, *_LOCKS),
    "wakhurmi_take_uses": (_POINTER, _NUMBER, *_LOCKS),
    "wakhurmi_take_uses_until": (_POINTER, _NUMBER, *_LOCKS, _TO_TIME),
    "wakhurmi_try_take_uses": (_POINTER, _NUMBER, *_LOCKS),
    "wakhurmi_hand_back": (_POINTER, _NUMBER),
    "wakhurmi_enter": (_POINTER, _NUMBER),
    "wakhurmi_leave": (_POINTER, _NUMBER),
    "wakhurmi_leave_until": (_POINTER, _NUMBER, _TO_TIME),
    "wakhurmi_stop": (_POINTER,),
    "wakhurmi_leases_out": (_POINTER, _TO_NUMBER),
    "wakhurmi_take_history": (_POINTER, _TO_POINTER),
    "wakhurmi_part_text": (_POINTER, *_TEXT),
    "wakhurmi_close_part": (_POINTER,),
    "wakhurmi_finish": (_POINTER,),
    "wakhurmi_history": (_POINTER, *_TEXT),
    "wakhurmi_close": (_POINTER,),
    "wakhurmi_make_plan": (_NUMBER, _TO_POINTER),
    "wakhurmi_plan_task": (_POINTER, _NUMBER, _TO_NUMBER),
    "wakhurmi_plan_after": (_POINTER, _NUMBER, *_LOCKS),
    "wakhurmi_plan_action": (_POINTER, _NUMBER, ctypes.c_uint, _NUMBER, ctypes.c_bool),
    "wakhurmi_close_plan": (_POINTER,),
    "wakhurmi_open_plan": (_POINTER, _NUMBER, _NUMBER, _TO_POINTER),
    "wakhurmi_next": (_POINTER, _NUMBER, _TO_WORK),
    "wakhurmi_try_next": (_POINTER, _NUMBER, _TO_WORK),
    "wakhurmi_done": (_POINTER, _NUMBER, ctypes.c_bool, ctypes.c_uint64),
    "wakhurmi_done_next": (_POINTER, _NUMBER, ctypes.c_bool, ctypes.c_uint64, _TO_WORK),
    "wakhurmi_task_outcome": (_POINTER, _NUMBER, _TO_ENUM),
    "wakhurmi_item_outcome": (_POINTER, _NUMBER, _NUMBER, _NUMBER, _TO_ENUM, ctypes.POINTER(ctypes.c_uint64)),
    "wakhurmi_run": (_POINTER, _NUMBER, _NUMBER, _POINTER, _POINTER, _TO_POINTER),
}
_WITHOUT_ANSWER = ("wakhurmi_close_part", "wakhurmi_close", "wakhurmi_close_plan")
_LIBRARY = "libwakhurmi.so"


def _load() -> ctypes.CDLL:
    """The library, with each function told what it takes. It is no PyDLL: a call lets go of the interpreter."""
    places = [pathlib.Path(__file__).parent / _LIBRARY]
    if os.environ.get("WAKHURMI"):
        places.append(pathlib.Path(os.environ["WAKHURMI"], "shared", _LIBRARY))
    found = next((str(place.resolve()) for place in places if place.is_file()), _LIBRARY)
    try:
        library = ctypes.CDLL(found)
    except OSError as error:
        looked = ", ".join(map(str, places))
        raise ImportError(f"{_LIBRARY}, which c/build.sh makes, isn't at {looked}, and the loader says: {error}") from error
    for name, arguments in _SIGNATURES.items():
        function = getattr(library, name)
        function.argtypes = arguments
        function.restype = None if name in _WITHOUT_ANSWER else ctypes.c_uint
    return library


_library = _load()


def _number(value: int, what: str, largest: int = _LARGEST) -> int:
    """The value, where C has room for it. Else it would be another number there."""
    if 0 <= value <= largest:
        return value
    raise BadNumber(f"{value} is no {what}")


def _array(numbers: Tuple[int, ...], what: str = "lock") -> Any:
    for number in numbers:
        _number(number, what)
    return (ctypes.c_uint32 * len(numbers))(*numbers) if numbers else None


def _time(moment: float) -> _Time:
    """A time before the clock's first is its first. One of 10^10 seconds is never to the library."""
    return _Time(*divmod(int(min(max(moment, 0.0), 1e10) * 1e9), 10**9))
