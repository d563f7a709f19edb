"""What is shown of a world, as plain values: for the screen, and in JSON for the page."""
from .parties import OTHER_CODE, SILENT
from .refusals import code_text
from .tallies import by_name
from .world import moment_text

PLOT_STEP = 5  # seconds
SHOWN_HAPPENINGS = 60


def state_of(world, follower, policy):
    """All that is shown, at the time of the capture that it is now."""
    now = world.clock()
    return {
        "policy": str(policy),
        "time": moment_text(now) if follower.packets else "no packet yet",
        "capture": {
            "packets": follower.packets, "missing": follower.missing(), "unread": follower.unread(),
            "unreadable": follower.unreadable, "forgotten": world.forgotten,
        },
        "switches": [switch_state(world, switch, now) for switch in in_order(world.switches)],
        "strays": [stray_state(world, link, stray, now) for link, stray in world.strays.items()],
        "happenings": [[moment_text(time), text] for time, text in list(world.happenings)[-SHOWN_HAPPENINGS:]],
    }


def in_order(switches):
    """Switches by their names, and those without a datapath id at the end."""
    return sorted(switches, key=lambda switch: (switch.datapath is None, switch.name()))


def party_state(party, now):
    """What a switch's and a controller's connection have in common."""
    is_silent = party.is_up and party.silent >= SILENT
    return {
        "up": party.is_up,
        "since": moment_text(party.since),
        "seconds": max(0, int(now - party.since)),
        "late": party.link is not None and party.link.is_late,
        "reason": f"silent for {party.silent} s: what is sent isn't acknowledged" if is_silent else party.reason,
        "silent": is_silent,
        "connections": party.connections,
        "sent": by_name(party.sent.rates),
        "got": by_name(party.got.rates),
        "plot": party.plot.means(PLOT_STEP),
    }


def switch_state(world, switch, now):
    """What is shown of a switch."""
    return party_state(switch, now) | {
        "name": switch.name(),
        "known": switch.datapath is not None,
        "address": switch.address,
        "nobody": switch.nobody,
        "last_nobody": switch.last_nobody,
        "errors": switch.errors,
        "slices": [slice_state(world.slices[slot], here, now) for slot, here in switch.slices.items()],
    }


def slice_state(one, here, now):
    """What is shown of a slice on a switch."""
    refused = [(error_text(error), count) for error, count in here.refused.most_common()]
    shown = party_state(here, now)
    return shown | {
        "reason": "; ".join(filter(None, (shown["reason"], here.call))),
        "name": one.name,
        "controller": one.controller,
        "flow_mods": here.sent.totals()[14],
        "pieces": here.pieces,
        "refused": refused,
        "refusals": [[moment_text(time), text] for time, text in here.refusals],
        "entries": here.entries,
        "entries_at_least": here.entries_at_least,
        "quota": one.quota,
        "rated": here.rated(),
        "rate": one.rate,
    }


def error_text(error):
    """An error by its names in the standard."""
    return "other errors" if error == OTHER_CODE else code_text(*error)


def stray_state(world, link, stray, now):
    """What is shown of a controller's connection of which it isn't known for which switch it is."""
    return party_state(stray, now) | {"name": world.slices[link.role].name, "controller": world.slices[link.role].controller}
