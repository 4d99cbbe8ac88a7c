"""The set-up beside a configuration that is kept: what differs, and the kept text with the set-up written anew."""

from typing import Any

from piotool.calls import Fault
from piotool.firmware_files import PIN_KEYS, machine_table
from piotool.firmware_map import DEFAULTS, PINS
from piotool.firmware_programs import Sources
from piotool.firmware_setup import BlockSetup, settled


def differences(block: BlockSetup, kept: dict[str, Any], sources: Sources, added: set[int]) -> list[str]:
    """What differs between a block and the tables of a kept configuration; the machines in `added` aren't the firmware's."""
    machines = {table.get("id"): table for table in kept["machine"] if table.get("id") not in added}
    lines = []
    for number in sorted({*machines, *block.machines}, key=str):
        lines += machine_differences(block, number, machines.get(number), sources)
    used = {table.get("program") for table in machines.values()}
    ats = {it.program.name: it.at for it in block.loads}
    for table in kept["load"]:
        name = table.get("program")
        if name in ats and name in used:
            program = sources.programs.get(name)
            at = table.get("at", (program.origin if program else None) or 0)
            lines += difference(f"load {name} at", ats[name], at)
    for key in PIN_KEYS if "own" in block.pins else PIN_KEYS[:-1]:
        recorded, told = block.pins.get(key, []), kept["pins"].get(key, [])
        # Pins that the chip doesn't have are the author's own signals.
        told = sorted(pin for pin in set(told) if pin < PINS or pin in recorded)
        lines += difference(f"pins {key}", recorded, told) if key in block.pins else []
    return lines


def difference(what: str, recorded: object, kept: object) -> list[str]:
    """The line of a value that differs."""
    return [] if recorded == kept else [f"{what}: recorded {shown(recorded)}, kept {shown(kept)}"]


def shown(value: object) -> str:
    """A value as a configuration has it."""
    return str(value).lower() if isinstance(value, bool) or value is None else str(value)


def machine_differences(block: BlockSetup, number: int, table: dict[str, Any] | None, sources: Sources) -> list[str]:
    """The lines of one machine."""
    machine = block.machines.get(number)
    if machine is None:
        return [f"machine {number}: not recorded, kept"]
    if table is None:
        return [f"machine {number}: recorded, not kept"]
    name = machine.placed.program.name
    if table.get("program") != name:
        return [f"machine {number} program: recorded {name}, kept {table.get('program')}"]
    program = sources.programs.get(name, machine.placed.program)
    labels = program.labels | machine.placed.program.labels
    lines = []
    if labels.get(table.get("start", ""), 0) != machine.start_place:
        lines = difference(f"machine {number} start", machine.start or "the first word", table.get("start", "the first word"))
    kept = settled({key: table.get(key, default) for key, default in DEFAULTS.items()}, int(machine.placed.program.rule["side_bits"]))
    for key in DEFAULTS:
        lines += difference(f"machine {number} {key}", machine.keys[key], kept[key])
    return lines + difference(f"machine {number} pending", machine.keys.get("pending"), table.get("pending"))


def kept_text(path: str, text: str, block: BlockSetup, added: set[int]) -> str:
    """The text of a kept configuration with the set-up written anew; spans and comments are as they were."""
    try:
        import tomlkit
        from tomlkit.exceptions import TOMLKitError
    except ImportError:
        raise Fault("--keep needs python3-tomlkit: apt-get install python3-tomlkit") from None
    try:
        document = tomlkit.parse(text)
    except TOMLKitError as fault:
        raise Fault(f"{path}: {fault}") from None
    outside = [table for table in document.get("machine", []) if table.get("id") in added]
    names = {str(table.get("program")) for table in outside}
    loads = [{"program": it.program.name, "at": it.at, "is_default": it.at == (it.program.origin or 0)} for it in block.loads]
    write_loads(tomlkit, document, loads, names)
    write_machines(tomlkit, document, [machine_table(it) for it in block.machines.values()], added)
    write_pins(tomlkit, document, block.pins)
    return tomlkit.dumps(document)


def tables_in(tomlkit: Any, document: Any, key: str) -> Any:
    """The array of tables of a document; it is made where there is none."""
    if key not in document:
        document.append(key, tomlkit.aot())
    return document[key]


def write_loads(tomlkit: Any, document: Any, loads: list[dict[str, Any]], others: set[str]) -> None:
    """The loads, in the order of the kept ones."""
    kept = tables_in(tomlkit, document, "load")
    for table in [it for it in kept if str(it.get("program")) not in {load["program"] for load in loads} | others]:
        kept.remove(table)
    for load in loads:
        table = next((it for it in kept if it.get("program") == load["program"]), None)
        if table is None:
            kept.append(table_of(tomlkit, {"program": load["program"]} | ({} if load["is_default"] else {"at": load["at"]})))
        elif "at" in table or not load["is_default"]:
            set_key(table, "at", load["at"])


def write_machines(tomlkit: Any, document: Any, machines: list[dict[str, Any]], added: set[int]) -> None:
    """The machines: keys that changed are written, those at their default are taken out where they don't say it."""
    kept = tables_in(tomlkit, document, "machine")
    for table in [it for it in kept if it.get("id") not in {machine["id"] for machine in machines} | added]:
        kept.remove(table)
    for machine in machines:
        table = next((it for it in kept if it.get("id") == machine["id"]), None)
        if table is None:
            kept.append(table_of(tomlkit, machine))
            continue
        for key in [it for it in table if it not in machine and it not in DEFAULTS]:
            del table[key]
        said = {key: default for key, default in DEFAULTS.items() if key in table}
        for key, value in (said | machine).items():
            set_key(table, key, value)


def set_key(table: Any, key: str, value: Any) -> None:
    """Writes a value where it isn't there, and leaves the key's comment."""
    if key not in table or table[key] != value:
        table[key] = value


def write_pins(tomlkit: Any, document: Any, pins: dict[str, list[int]]) -> None:
    """The lists of pins. Pins that the chip doesn't have stay as they are."""
    if "pins" not in document and any(pins.values()):
        document.append("pins", tomlkit.table())
    table = document.get("pins", {})
    for key, recorded in pins.items():
        told = [int(pin) for pin in table.get(key, [])]
        wanted = sorted({*recorded, *(pin for pin in told if pin >= PINS)})
        if sorted(set(told)) == wanted:
            continue
        if wanted:
            set_key(table, key, wanted)
        else:
            del table[key]


def table_of(tomlkit: Any, values: dict[str, Any]) -> Any:
    """A new table."""
    table = tomlkit.table()
    for key, value in values.items():
        table.add(key, value)
    table.add(tomlkit.nl())
    return table
