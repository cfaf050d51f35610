"""Files of objects and archives: each is expanded as a whole, or refused."""
import concurrent.futures
import dataclasses
import os

from shared.expand import archives, linked
from shared.expand.expanding import Expanded, expand_object
from shared.expand.objects import COMPRESSED_CODE, EXECUTABLE, RELOCATABLE, Refused, header_of

MOST_TOLD = 10  # refusals of an archive's members
SEVERAL = 32  # members of an archive from which on they are shared out to several processes


class Refusals(Exception):
    """A line for each input, or member of one, that can't be expanded."""


@dataclasses.dataclass(frozen=True)
class Result:
    """A file without compressed code, and what is told of it."""
    name: str
    data: bytes
    before: int
    after: int
    far: int
    warnings: list[str]

    @property
    def sizes(self) -> str:
        return f"{self.name}: code {self.before} -> {self.after} bytes, {self.far} far branches"


def result_of(name: str, data: bytes, parts: dict[str, Expanded]) -> Result:
    """The result of a file whose parts are these; of many warnings the first, and how many there are."""
    warnings = [f"{label}: {part.warning}" for label, part in parts.items() if part.warning]
    more = [f"{name}: the like of {len(warnings) - 1} members more"] if len(warnings) > 1 else []
    sums = [sum(getattr(part, field) for part in parts.values()) for field in ("before", "after", "far")]
    return Result(name, data, *sums, warnings[:1] + more)


def expand(name: str, data: bytes, trusted: bool = False) -> Result:
    """What an object or an archive becomes."""
    if data.startswith(archives.MAGIC):
        return expand_archive(name, data, trusted)
    try:
        if data.startswith(archives.THIN):
            raise Refused("a thin archive: give its members")
        part = expand_object(data, trusted)
    except Refused as why:
        raise Refusals(f"{name}: {why}") from None
    return result_of(name, part.data, {name: part})


def expand_linked(name: str, data: bytes, trusted: bool = False) -> tuple[Result, str]:
    """What a linked file becomes: an object, and the linker script for it."""
    try:
        part, script = linked.expand(data, trusted)
    except Refused as why:
        raise Refusals(f"{name}: {why}") from None
    return result_of(name, part.data, {name: part}), script


def expand_archive(name: str, data: bytes, trusted: bool) -> Result:
    try:
        members = archives.read(data)
    except Refused as why:
        raise Refusals(f"{name}: {why}") from None
    objects = [member for member in members if member.is_object]
    outcomes = expand_all([member.data for member in objects], trusted)
    refused = [f"{name}({member.name}): {outcome}" for member, outcome in zip(objects, outcomes) if isinstance(outcome, str)]
    if refused:
        more = [f"{name}: the like of {len(refused) - MOST_TOLD} members more"] if len(refused) > MOST_TOLD else []
        raise Refusals(*refused[:MOST_TOLD], *more)
    for member, outcome in zip(objects, outcomes):
        member.data = outcome.data
    return result_of(name, archives.to_bytes(members), {f"{name}({member.name})": outcome for member, outcome in zip(objects, outcomes)})


def expand_all(objects: list[bytes], trusted: bool) -> list[Expanded | str]:
    """What each object becomes, or why it can't be expanded."""
    processes = min(os.cpu_count() or 1, 4)
    if len(objects) < SEVERAL or processes == 1:
        return [outcome_of(data, trusted) for data in objects]
    with concurrent.futures.ProcessPoolExecutor(processes) as pool:
        return list(pool.map(outcome_of, objects, [trusted] * len(objects), chunksize=16))


def outcome_of(data: bytes, trusted: bool) -> Expanded | str:
    try:
        return expand_object(data, trusted)
    except Refused as why:
        return str(why)


def is_input(data: bytes) -> bool:
    """Whether a file is an object or an archive."""
    try:
        return data.startswith((archives.MAGIC, archives.THIN)) or header_of(data).kind == RELOCATABLE
    except Refused:
        return False


def is_compressed(data: bytes) -> bool:
    """Whether a file, or a member of an archive, has compressed code."""
    try:
        if data.startswith(archives.MAGIC):
            return any(is_compressed(member.data) for member in archives.read(data) if member.is_object)
        header = header_of(data)
        return header.kind in (RELOCATABLE, EXECUTABLE) and bool(header.flags & COMPRESSED_CODE)
    except Refused:
        return False
