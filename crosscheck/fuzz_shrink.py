"""Makes the files of a violation small: lines are taken away, then bytes, then clocks, as long as the same thing isn't so."""

import re
import time

from fuzz_checks import CHECKS, outcome

SECONDS = 40


def kind_of(found):
    """What two violations of one kind have in common: what is told of them before the first value."""
    return re.split(r"[0-9'\"{(:]", found.told)[0]


def shrunk(program, case, found):
    """The smallest case that was found, and its violation."""
    kind, until = kind_of(found), time.monotonic() + SECONDS

    def again(files, asked):
        smaller = case._replace(files=files, asked=asked)
        violation = outcome(program, smaller)[1] if time.monotonic() < until else None
        return violation if violation and kind_of(violation) == kind else None

    for name in list(case.files):
        files = {other: content for other, content in case.files.items() if other != name}
        if all(it in files for it in CHECKS[case.check].needed) and (less := again(files, case.asked)):
            case, found = case._replace(files=files), less
    for clocks in (0, 1, 2, 3, 5, 10, 30, 100):
        asked = case.asked | {"clocks": min(clocks, case.asked["clocks"]), "fewer": min(clocks, case.asked["fewer"])}
        if less := again(case.files, asked):
            case, found = case._replace(asked=asked), less
            break
    for by_bytes in (False, True):
        for name in case.files:
            content, smaller = case.files[name], None
            pieces = [bytes([byte]) for byte in content] if by_bytes else content.splitlines(keepends=True)
            size = max(1, len(pieces) // 2)
            while pieces and time.monotonic() < until:
                place = 0
                while place < len(pieces):
                    rest = pieces[:place] + pieces[place + size :]
                    files = case.files | {name: b"".join(rest)}
                    smaller = again(files, case.asked)
                    if smaller:
                        case, found, pieces = case._replace(files=files), smaller, rest
                    else:
                        place += size
                if size == 1:
                    break
                size = max(1, size // 2)
    return case, found
