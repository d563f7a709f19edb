"""The records of a recording (this proxy's own form)."""
from flowvisor_tool.recordings import HEAD, LARGEST_RECORD, MAGIC, SWITCHES, Kind, OpenConnections, Record


class RecordingRefused(Exception):
    """A recording that isn't one: its text says why, and where."""


def read_records(data, slices):
    """The records of a recording under a policy of so many slices."""
    if len(data) < len(MAGIC):
        raise RecordingRefused("torn record at 0")
    if not data.startswith(MAGIC):
        raise RecordingRefused("bad record at 0")
    records, at, connections = [], len(MAGIC), OpenConnections()
    while at < len(data):
        record = record_at(data, at, slices)
        if not connections.take(record):
            raise RecordingRefused(f"not open at {at}")
        records.append(record)
        at += HEAD.size + len(record.data)
    return records


def record_at(data, at, slices):
    """The record at a place, whatever is open there."""
    if len(data) - at < HEAD.size:
        raise RecordingRefused(f"torn record at {at}")
    kind, switch, slot, zero, length, moment = HEAD.unpack_from(data, at)
    if not is_head(kind, switch, slot, zero, length, slices):
        raise RecordingRefused(f"bad record at {at}")
    content = data[at + HEAD.size :][:length]
    if len(content) < length:
        raise RecordingRefused(f"torn record at {at}")
    return Record(Kind(kind), moment, content, slot, switch)


def is_head(kind, switch, slot, zero, length, slices):
    """Whether these numbers make a record's head."""
    if kind not in list(Kind) or switch >= SWITCHES or zero:
        return False
    if slot >= (1 if Kind(kind).is_of_switch() else slices):
        return False
    return length <= (LARGEST_RECORD if Kind(kind).has_bytes() else 0)
