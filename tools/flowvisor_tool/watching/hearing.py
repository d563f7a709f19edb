"""What is read of messages: what switches are, what slices are refused, which entries they have, and whose packets are."""
from ..fields import packet_text
from ..frame_header import header_of, probe_slot
from ..openflow.protocol import HEADER, FlowModCommand, Header
from ..recordings import is_features_reply
from .matching import MATCH_SIZE, spelled_anew
from .messages import readers_of
from .parties import MOST_SENT_BYTES
from .refusals import code_text, is_flow_mod

# How many refusals, and how many packets for nobody, are reported one by one in a second; the others by their number.
MOST_TOLD = 5
PROXY_SLOT = 0xFF
PAIR_AT, PRIORITY_AT, FLOW_REMOVED_PRIORITY_AT = HEADER.size, 62, 56


class Hearing:
    """Reads messages, and has the world know what they say."""

    def __init__(self, world):
        self.world = world
        self.of_switch = readers_of(
            error=self.hear_switch_error, features_reply=self.hear_features, packet_in=self.hear_packet_in,
            flow_removed=self.hear_flow_removed,
        )
        self.to_switch = readers_of(flow_mod=self.hear_piece)
        self.of_controller = readers_of(flow_mod=self.hear_sent, packet_out=self.hear_sent)
        self.to_controller = readers_of(error=self.hear_refusal, features_reply=self.hear_told_features)

    def readers(self, is_of_switch, is_peer):
        """Who reads what a side of a connection sends."""
        if is_of_switch:
            return self.of_switch if is_peer else self.to_switch
        return self.of_controller if is_peer else self.to_controller

    # Messages of a switch, and to it.

    def hear_features(self, messages, data, at, length):
        """A switch tells what it is."""
        message = data[at : at + length]
        link = messages.owner.link
        if link.view is not None and is_features_reply(message):
            self.world.know(link, int.from_bytes(message[8:16], "big"))

    def hear_packet_in(self, messages, data, at, length):
        """A packet comes up: it is nobody's where no rule has it."""
        switch = messages.owner.link.view
        if switch is None or length < 18 or (switch.datapath is None and self.world.audience.names_switches):
            return
        in_port = data[at + 14] << 8 | data[at + 15]
        frame = data[at + 18 : at + length]
        if self.world.audience.rule_of(in_port, frame, switch.datapath) is None and probe_slot(frame) not in self.world.slices:
            self.nobody_gets(switch, in_port, frame)

    def nobody_gets(self, switch, in_port, frame):
        """A packet comes up that no rule has."""
        switch.nobody += 1
        if switch.nobody_told < MOST_TOLD:
            switch.nobody_told += 1
            header = header_of(in_port, frame)
            switch.last_nobody = packet_text(header) + self.nearest(header, switch.datapath)
            self.world.tell(f"switch {switch.name()}: a packet for nobody: {switch.last_nobody}")

    def nearest(self, header, datapath):
        """The rule that a packet misses by the fewest fields."""
        rules = [rule for rule in self.world.audience.rules if rule.pattern.holds_on(datapath)]
        if not rules:
            return ""
        rule = min(rules, key=lambda rule: len(rule.pattern.unmet(header)))
        return f"; nearest is {rule}, not by {', '.join(f'{name} = {rule.texts[name]}' for name in rule.pattern.unmet(header))}"

    def hear_flow_removed(self, messages, data, at, length):
        """An entry has left the switch."""
        switch = messages.owner.link.view
        if switch is not None and length >= FLOW_REMOVED_PRIORITY_AT + 2:
            match = data[at + PAIR_AT : at + PAIR_AT + MATCH_SIZE]
            priority = data[at + FLOW_REMOVED_PRIORITY_AT : at + FLOW_REMOVED_PRIORITY_AT + 2]
            pair = match + priority
            switch.release(pair if pair in switch.entries else spelled_anew(match) + priority)

    def hear_switch_error(self, messages, data, at, length):
        """The switch refuses a message."""
        switch = messages.owner.link.view
        if switch is None:
            return
        switch.errors += 1
        refused = data[at + 12 : at + length]
        if is_flow_mod(refused):
            match, priority = refused[PAIR_AT : PAIR_AT + MATCH_SIZE], refused[PRIORITY_AT : PRIORITY_AT + 2]
            switch.release(match + priority, Header.of(refused).xid)

    def hear_piece(self, messages, data, at, length):
        """The switch is sent a flow-mod, of a slice by its transaction id."""
        switch = messages.owner.link.view
        if switch is None or length < 72:
            return
        slot = data[at + 4]
        command = data[at + 57]
        if slot == PROXY_SLOT:
            switch.forget_entries()
            return
        here = switch.slices.get(slot)
        if here is None:
            return
        here.pieces += 1
        if command in (FlowModCommand.ADD, FlowModCommand.MODIFY_STRICT):
            pair = data[at + PAIR_AT : at + PAIR_AT + MATCH_SIZE] + data[at + PRIORITY_AT : at + PRIORITY_AT + 2]
            if pair not in switch.entries:
                switch.book(pair, slot, int.from_bytes(data[at + 4 : at + 8], "big"), self.world.slices[slot].quota)
        elif command == FlowModCommand.MODIFY:
            here.entries_at_least = True

    # Messages of a controller, and to it.

    def hear_sent(self, messages, data, at, length):
        """A controller sends a flow-mod or a packet-out: it is kept for a while."""
        here = messages.owner.link.view
        if here is not None:
            here.last_sent.append(data[at : at + min(length, MOST_SENT_BYTES)])

    def hear_told_features(self, messages, data, at, length):
        """The proxy tells a controller what its switch is: so it is known for which switch the connection is."""
        message = data[at : at + length]
        link = messages.owner.link
        if not is_features_reply(message):
            return
        datapath = int.from_bytes(message[8:16], "big")
        switch = next((one for one in self.world.switches if one.datapath == datapath), None)
        if switch is None:
            unknown = [one for one in self.world.switches if one.is_up and one.datapath is None]
            if len(unknown) == 1:
                self.world.know(unknown[0].link, datapath)
                switch = unknown[0]
        if switch is not None and link.view is not None:
            self.world.attach(link, switch)

    def hear_refusal(self, messages, data, at, length):
        """A controller is sent an error."""
        here = messages.owner.link.view
        if here is None or length < 12:
            return
        kind, code = data[at + 8] << 8 | data[at + 9], data[at + 10] << 8 | data[at + 11]
        here.refuse((kind, code))
        if here.told < MOST_TOLD:
            here.told += 1
            refused = data[at + 12 : at + length]
            switch = self.world.switch_of(here)
            text = self.refusal_text(here, switch, kind, code, refused)
            here.refusals.append((self.world.clock(), text))
            name = switch.name() if switch else "not known"
            self.world.tell(f"switch {name}: {self.world.slices[here.slot].name}: refused: {text}")

    def refusal_text(self, here, switch, kind, code, refused):
        """What was refused, and why."""
        if len(refused) < HEADER.size:
            return code_text(kind, code)
        message = here.sent_message(Header.of(refused).xid)
        if message is not None and message[: len(refused)] != refused[: len(message)]:
            message = None
        datapath = switch.datapath if switch else None
        return self.world.refusals.text(self.world.slices[here.slot], datapath, kind, code, refused, message)
