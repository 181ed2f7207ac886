"""What tpmsim-coverage prints: a line for each command, and a line for all of them."""

import json
from typing import Iterable

from tpmsim.coverage.met import Met
from tpmsim.refusals.words import sentence_of
from tpmsim.standard import ALL_NUMBERED, NAMED, Profile
from tpmsim.standard.rows import AnyRow, Kind, UNKNOWN


def kinds_of(only: Kind | None) -> list[Kind]:
    """Returns the counted kinds."""
    return list(Kind) if only is None else [only]


def names_of(met: Met) -> list[str]:
    """Returns the names of the used commands, in the order of their description."""
    return [UNKNOWN, *(it.name for it in ALL_NUMBERED.values() if it.name in met.used)]


def percent_of(met: Met, only: Kind | None) -> float:
    """Returns the share of the counted refusals that were met, in percent."""
    found, count = met.share(met.could(only))
    return 100 * found / count if count else 100.0


def cell(found: int, count: int) -> str:
    """Returns the text of a share; empty if there is no such refusal."""
    return f"{found}/{count}" if count else ""


def table(met: Met, only: Kind | None, lists_never: bool = False) -> list[str]:
    """Returns a line for each used command: how often it was accepted, and how many of its
    refusals were met, by kind. `lists_never` adds each refusal that was never met.
    """
    kinds = kinds_of(only)
    lines = [f"{'command':26} accepted" + "".join(f"{it.value:>10}" for it in kinds)]
    rows = met.could(only)
    for name in names_of(met):
        own = [it for it in rows if it.name == name]
        shares = (cell(*met.share(it for it in own if it.kind == kind)) for kind in kinds)
        if own or met.accepted[name]:
            lines.append(
                f"{name:26} {met.accepted[name]:8}" + "".join(f"{it:>10}" for it in shares)
            )
        if lists_never:
            lines += [never_line(it) for it in own if it not in met.refused]
    return [*lines, *summary(met, only)]


def never_line(row: AnyRow) -> str:
    """Returns the line of a refusal that was never met, which begins as tpmsim-refusals names it."""
    return f"    never {row.name} {row.check} {row.code_name} ({row.code:X}): {sentence_of(row)}"


def summary(met: Met, only: Kind | None) -> list[str]:
    """Returns the line about all commands, and a line about commands that do not count."""
    shares = (f"{it.value} {cell(*met.share(met.could(it))) or '0/0'}" for it in kinds_of(only))
    profile = Profile.SYMMETRIC if met.used <= NAMED.keys() else Profile.COMPLETE
    used = f"{len(met.used)} of {len(profile.commands)} kinds of commands"
    found, count = met.share(met.could(only))
    lines = [
        f"{met.commands} commands, {used}; {found} of {count} refusals met "
        f"({percent_of(met, only):.1f} %): {', '.join(shares)}"
    ]
    if met.differing:
        words = "were not answered as by the model, and do not count"
        lines.append(f"{met.differing} commands {words}")
    return lines


def value_of(met: Met, only: Kind | None) -> dict[str, object]:
    """Returns the report as a value for JSON."""
    return {
        "commands": met.commands,
        "differing": met.differing,
        "accepted": {it: met.accepted[it] for it in names_of(met) if met.accepted[it]},
        "kinds": {it.value: shares_value(met, it) for it in kinds_of(only)},
        "percent": round(percent_of(met, only), 1),
        "refusals": rows_value(met, met.could(only)),
    }


def shares_value(met: Met, kind: Kind) -> dict[str, int]:
    found, count = met.share(met.could(kind))
    return {"met": found, "of": count}


def rows_value(met: Met, rows: Iterable[AnyRow]) -> list[dict[str, object]]:
    return [
        {
            "command": it.name,
            "check": it.check,
            "code": f"{it.code:08x}",
            "name": it.code_name,
            "kind": it.kind.value,
            "met": met.refused[it],
        }
        for it in rows
    ]


def json_of(met: Met, only: Kind | None) -> str:
    """Returns the report in JSON."""
    return json.dumps(value_of(met, only), indent=1)
