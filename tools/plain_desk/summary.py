"""What `flowvisor gen` tells of a recording: how many messages are sent, and their bytes (this proxy's own form)."""
import collections

from .replay import Replay


def summary_lines(policy, records):
    replay, count, sent = Replay(policy), 0, collections.defaultdict(list)
    for record in records:
        for _, step in replay.steps(record):
            count += 1
            sent["lane"] += map(len, step.lane)
            for slot, one in step.sent:
                sent[policy.slices[slot].name].append(len(one))
    names = ["lane", *(one.name for one in policy.slices)]
    return [f"events {count}", *(f"{name} {len(sent[name])} {sum(sent[name])}" for name in names)]
