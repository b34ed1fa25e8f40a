"""The sizes and options of a mote."""
from __future__ import annotations

from dataclasses import dataclass, fields

from .errors import BadSizes, Reason, WrongType
from .library import Configuration
from .rules import RULES
from .values import index_of


@dataclass(frozen=True)
class Options:
    """The options of the program ``mote``, with sizes in bytes. Bad sizes are refused by a run or a mote, not here."""

    mmem: int = 4096
    """Managed memory: a multiple of 4 from 4 to 65,536."""
    heap: int = 4096
    """Heap memory: a multiple of 4 from 20 to 65,536."""
    header: int = 16
    """A header in heap memory: 16 or 8."""
    quota: int | None = None
    """Managed memory for each application and for the frames, a multiple of 4 from 4 on; None: each may take all that is free."""
    quiet: bool = False
    """Whether the transcript has only what is printed and sent, and the last line."""

    def __post_init__(self) -> None:
        for name in ("mmem", "heap", "header", "quota"):
            size = getattr(self, name)
            if type(size) is int or (name == "quota" and size is None):
                continue
            number = index_of(size)
            if number is None:
                wanted = "an int or None" if name == "quota" else "an int"
                raise WrongType(f"{name} must be {wanted}, not {type(size).__name__}")
            object.__setattr__(self, name, number)
        if not isinstance(self.quiet, bool):
            raise WrongType(f"quiet must be True or False, not {type(self.quiet).__name__}")

    def bad(self, why: Reason, applications: int = 0) -> BadSizes:
        """The exception where no mote with this number of applications boots with these sizes, for this reason."""
        if why is Reason.ALL_QUOTAS:
            holders = f"{applications} application{'' if applications == 1 else 's'} and the frames"
            message = f"quota is {self.quota}; {applications + 1} of them ({holders}) exceed mmem, which is {self.mmem}"
            return BadSizes("quota", why, message)
        name = why.name.lower()
        return BadSizes(name, why, f"{name} is {getattr(self, name)}; {RULES.sizes[name].allowed} is allowed")

    def configuration(self) -> Configuration:
        """The numbers for the library, which checks them; raises BadSizes where one doesn't fit 32 bits."""
        for why in (Reason.MMEM, Reason.HEAP, Reason.HEADER, Reason.QUOTA):
            if not 0 <= (getattr(self, why.name.lower()) or 0) < 2**32:
                raise self.bad(why)
        return self.mmem, self.heap, self.header, self.quota is not None, self.quota or 0, self.quiet

    def words(self) -> list[str]:
        """The arguments for the program ``mote``, of all that differs from the defaults.

        >>> Options(mmem=64, quiet=True).words()
        ['--mmem', '64', '--quiet']
        """
        made = []
        for field in fields(self):
            value = getattr(self, field.name)
            if value != field.default:
                made += [f"--{field.name}"] if field.name == "quiet" else [f"--{field.name}", str(value)]
        return made


def one_of(single: Options, whole: object) -> Options:
    """Options that were passed one by one, or as a whole."""
    if whole is None:
        return single
    if not isinstance(whole, Options):
        raise WrongType(f"options must be an Options, not {type(whole).__name__}")
    if single != Options():
        raise WrongType("options and single sizes are given: one or the other")
    return whole
