"""What the scripts of tools/ share: files and calls, traces, set-ups, and models that were written from docs/SPECIFICATION.md.

For tests of firmware it has `run`, `check`, and what they give (docs/PYTHON.md). They are read when they are asked for.
"""

from typing import TYPE_CHECKING, Any

if TYPE_CHECKING:
    from piotool.testing import Fault as Fault
    from piotool.testing import Pin as Pin
    from piotool.testing import Refused as Refused
    from piotool.testing import Trace as Trace
    from piotool.testing import Values as Values
    from piotool.testing import Verdict as Verdict
    from piotool.testing import check as check
    from piotool.testing import run as run

__all__ = ["Fault", "Pin", "Refused", "Trace", "Values", "Verdict", "check", "run"]


def __getattr__(name: str) -> Any:
    """A name of the module for tests, which is read at the first one."""
    if name not in __all__:
        raise AttributeError(f"module 'piotool' has no attribute {name!r}")
    from piotool import testing

    return getattr(testing, name)
