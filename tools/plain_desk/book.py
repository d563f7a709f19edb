"""The book of a slice's entries: which pairs a flow-mod would book (OpenFlow 1.0.0, section 4.6; that there is a book is
this proxy's own rule)."""
from flowvisor_tool.openflow.protocol import FlowModCommand


def newcomers(view, command, pairs):
    """The pairs of a flow-mod that aren't booked; of a MODIFY those that have no booked match, of any priority."""
    if command == FlowModCommand.MODIFY:
        matches = [booked.match for booked in view.booked()]
        return tuple(pair for pair in pairs if not any(pair.match.includes(match) for match in matches))
    return tuple(pair for pair in pairs if not view.is_booked(pair))


def overlaps(view, pairs):
    """Whether a pair has a header in common with a booked one of its priority."""
    booked = view.booked()
    return any(pair.priority == one.priority and pair.match.meets(one.match) for pair in pairs for one in booked)
