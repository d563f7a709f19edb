"""Numbers by which it is seen that nothing is lost and nothing comes twice."""

import dataclasses

PLACES = 1 << 20


@dataclasses.dataclass
class Numbers:
    """What is sent one way, numbered, and what of it came. The numbers of each connection begin anew."""

    name: str
    connection: int = 0
    sent: int = 0
    came: int = 0
    whole: int = 0
    faults: list[str] = dataclasses.field(default_factory=list)

    def next(self):
        """The number of what is sent next."""
        place = self.sent
        self.sent += 1
        return self.connection * PLACES + place

    def take(self, number):
        """Takes the number of what came: the next one, or one of an earlier connection, which is late."""
        connection, place = divmod(number, PLACES)
        if connection < self.connection:
            return
        if connection != self.connection or place != self.came:
            self.faults.append(f"{self.name}: {place} of connection {connection} came in the place of {self.came}")
        self.came = place + 1
        self.whole += 1

    def renew(self):
        """The connection is another one; what is under way may be lost."""
        self.connection += 1
        self.sent = self.came = 0

    @property
    def is_settled(self):
        return self.came == self.sent

    def all_faults(self):
        """What is wrong, once all that was sent had time to come."""
        if self.is_settled:
            return self.faults
        return [*self.faults, f"{self.name}: of {self.sent} sent {self.came} came"]
