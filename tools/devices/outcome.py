"""What a case says."""

import dataclasses


@dataclasses.dataclass
class Outcome:
    """What was seen, in one line, and what of it isn't as it should be."""

    seen: str
    faults: list[str] = dataclasses.field(default_factory=list)

    @property
    def is_right(self):
        return not self.faults

    def line(self, name):
        verdict = "as it should be" if self.is_right else "NOT AS IT SHOULD BE"
        return f"{name}: {self.seen}: {verdict}"


def expect(faults, holds, fault):
    """Notes a fault where this doesn't hold."""
    if not holds:
        faults.append(fault)
