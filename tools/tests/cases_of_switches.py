"""Cases of from-pcap: which switch a connection is of."""
from from_pcap_cases import SLICES, Case, Run, one, refused
from made_captures import (
    ECHO, HELLO, Talk, alice_talk, bob_talk, ethernet, features_of, pcap, pcap_packet, switch_talk, timed,
)
from sunworsted import SLICE_BYTES, SLICE_DOWN, SLICE_UP, SWITCH_BYTES, SWITCH_DOWN, SWITCH_UP, record, recording

from flowvisor_tool.segments import ACK, FIN, RST


def taken_up():
    """Whether the proxy took a connection up: packets of it, and then another connection between the same ports."""
    talk = switch_talk()
    later = switch_talk(first_of_client=9999, first_of_server=1234567)
    whole, next_ = [*talk.opening(), talk.from_client(0, ECHO)], [*later.opening(), later.from_server(0, HELLO)]
    recorded = [record(SWITCH_UP, 2), record(SWITCH_BYTES, 3, ECHO), record(SWITCH_DOWN, 4)]
    for name, end_ in {"an end": talk.from_server(0, b"", FIN | ACK), "a reset": talk.from_server(0, b"", RST)}.items():
        yield one(f"not taken up, and {name}", [*whole, end_, *next_], record(SWITCH_UP, 7))
    yield one("not taken up, and a gap", [*whole, talk.from_client(20, ECHO), talk.from_server(0), *next_], record(SWITCH_UP, 8))
    turned_away = [whole[0], whole[1], whole[2], talk.from_server(0, b"", FIN | ACK), whole[3]]
    for name, flags in {"a reset": RST, "an acknowledgement": ACK}.items():
        yield one(f"not taken up, and {name} behind the end", [*turned_away, talk.from_server(1, b"", flags), *next_], record(SWITCH_UP, 8))
    yield one("not taken up, and the end again", [*turned_away, turned_away[3], *next_], record(SWITCH_UP, 8))
    yield one("not taken up, and a probe", [*whole, talk.from_server(-1), *next_], record(SWITCH_UP, 7))
    yield one("not taken up, and a probe of one byte", [*whole, talk.from_server(-1, b"\0"), *next_], record(SWITCH_UP, 7))
    ended = talk.from_server(0, b"", FIN | ACK)
    yield one("not taken up, and the last acknowledgement before the end", [*whole, talk.from_server(1), ended, *next_], record(SWITCH_UP, 8))
    for name, last in {
        "its number tells": talk.from_server(8, b"", FIN | ACK, seen=12),
        "its number tells of one byte": talk.from_server(1, b"", FIN | ACK, seen=12),
        "a probe of two bytes tells": talk.from_server(-1, b"\0\0", FIN | ACK, seen=12),
        "the number of a reset tells": talk.from_server(8, b"", RST),
        "it ends with bytes": talk.from_server(0, HELLO, FIN | ACK, seen=12),
    }.items():
        yield one(f"taken up, as {name}", [*whole, last, *next_], *recorded, record(SWITCH_UP, 7, switch=1))
    yield one("taken up, as what the switch acknowledges tells", [*whole, talk.from_server(-1), talk.from_client(12, seen=8), *next_],
              *recorded[:-1], record(SWITCH_DOWN, 6), record(SWITCH_UP, 8, switch=1))
    unknown = [talk.syn(), talk.from_client(0), talk.from_server(0)]
    yield one("taken up or not, without the answer to the SYN", unknown, record(SWITCH_UP, 1))
    alice = alice_talk()
    yield one("not taken up, and the controller's answer isn't in the capture", [
        *talk.opening(), alice.syn(), alice.from_client(0), alice.from_client(0, b"", FIN | ACK)], record(SWITCH_UP, 2))
    one_way = [talk.syn(), talk.from_client(0, ECHO), alice.syn_ack(), alice.from_server(0, ECHO)]
    yield one("only what comes to the proxy", one_way,
              record(SWITCH_UP, 1), record(SWITCH_BYTES, 1, ECHO), record(SLICE_UP, 3), record(SLICE_BYTES, 3, ECHO))


def sessions():
    """Slices of switches that come and go."""
    run, switch, alice, bob = Run(), switch_talk(), alice_talk(), bob_talk()
    run.switch(switch, 0, 0xA1)
    run.controller(alice, 0, 0)
    run.controller(bob, 1, 0)
    run.make(alice.from_server(0, HELLO), SLICE_BYTES, HELLO, slot=0)
    run.make(alice.from_server(8, b"", FIN | ACK), SLICE_DOWN, slot=0)
    alice = alice_talk("10.0.0.1:50002")
    run.controller(alice, 0, 0)
    run.make(alice.from_client(8, b"", FIN | ACK), SLICE_DOWN, slot=0)
    run.pass_(alice.from_server(0, HELLO))
    alice = alice_talk("10.0.0.1:50003")
    run.controller(alice, 0, 0)
    run.make(alice.from_server(0, ECHO), SLICE_BYTES, ECHO, slot=0)
    yield run.case("a slice comes up again")
    run.make(switch.from_client(32, b"", RST), SWITCH_DOWN)
    run.pass_(alice.from_server(12, ECHO), bob.from_server(0, ECHO), bob.from_server(12, b"", FIN | ACK))
    switch = switch_talk("10.0.0.9:40001")
    run.switch(switch, 1, 0xA1)
    bob = bob_talk("10.0.0.1:50004")
    run.controller(bob, 1, 1)
    run.pass_(alice.from_server(24, ECHO), alice.from_server(36, b"", RST))
    run.make(bob.from_server(0, ECHO), SLICE_BYTES, ECHO, slot=1, switch=1)
    yield run.case("a switch connects again, and connections of before linger")
    late = alice_talk("10.0.0.1:50005")
    run.make(switch.from_client(32, b"", FIN | ACK), SWITCH_DOWN, switch=1)
    run.pass_(*late.opening(), late.from_server(0, HELLO), late.from_client(0, b"", FIN | ACK))
    yield run.case("a controller is reached when its switch is gone")


def attributions():
    """Which switch a controller's connection belongs to."""
    one, two = switch_talk(), switch_talk("10.0.0.10:40000")
    run = Run()
    run.switch(one, 0, 0xA1)
    run.controller(alice_talk(), 0, 0)
    run.switch(two, 1, 0xA2)
    run.controller(alice_talk("10.0.0.1:50002"), 0, 1)
    run.make(one.from_client(32, ECHO), SWITCH_BYTES, ECHO)
    run.make(two.from_client(32, ECHO), SWITCH_BYTES, ECHO, switch=1)
    yield run.case("the switch whose slot is free")
    for first, second in ((0, 1), (1, 0)):
        run = Run()
        run.switch(one, 0, 0xA1)
        run.switch(two, 1, 0xA2)
        run.controller(alice_talk(), 0, first, 0xA1 + first)
        run.controller(bob_talk(), 1, second, 0xA1 + second)
        run.make(alice_talk().from_server(0, ECHO), SLICE_BYTES, ECHO, slot=0, switch=first)
        run.make(bob_talk().from_server(0, ECHO), SLICE_BYTES, ECHO, slot=1, switch=second)
        run.controller(alice_talk("10.0.0.1:50002"), 0, 1 - first)
        yield run.case(f"the switch of the datapath id, {first} before {second}")
        run = Run()
        run.switch(one, 0)
        run.switch(two, 1)
        run.controller(alice_talk(), 0, first)
        run.controller(bob_talk(), 1, second)
        yield run.case(f"the switch that is given, {first} and {second}", "--attach", f"7={first}", "--attach", f"10={second}")
        ambiguous = "packet 7: this connection to slot 0 may be of switch 0 or 1; --attach 7=SWITCH says of which it is"
        yield run.case(f"not clear which switch, {first} and {second}", expected=ambiguous)


def misfits():
    """Controllers' connections that belong to no switch."""
    of_none = "this connection to slot 0 is of no switch"
    run = Run()
    run.switch(switch_talk(), 0, 0xA1)
    run.controller(alice_talk(), 0, 0, 0xA3)
    yield run.case("a datapath id of no switch", expected=f"packet 5: {of_none}")
    yield run.case("the switch that is given for another datapath id", "--attach", "5=0")
    given = "says that this connection to slot 0 is of switch"
    run_of_two = Run()
    run_of_two.switch(switch_talk(), 0, 0xA1)
    run_of_two.switch(switch_talk("10.0.0.9:40001"), 1, 0xA2)
    run_of_two.controller(alice_talk(), 0, 1, 0xA2)
    of_another = f"packet 9: --attach 9=0 {given} 0, which hasn't the datapath id that the proxy tells there, but another switch has\n"
    yield run_of_two.case("a switch that is given against its datapath id", "--attach", "9=0", expected=of_another)
    yield run_of_two.case("a switch that is given as its datapath id says", "--attach", "9=1")
    not_up = f"packet 5: --attach 5=1 {given} 1, which is not up\n"
    yield run.case("a switch that isn't up is given", "--attach", "5=1", expected=not_up)
    not_there = "packet 1: no connection of a controller that came up begins with it"
    yield run.case("no controller's connection is given", "--attach", "1=0", "--attach", "5=0", expected=not_there)
    run.controller(alice_talk("10.0.0.1:50002"), 0, 0)
    yield run.case("a slot twice", "--attach", "5=0", expected=f"packet 9: {of_none}")
    not_free = f"packet 9: --attach 9=0 {given} 0, which has one already\n"
    yield run.case("a slot twice, and the switch is given", "--attach", "5=0", "--attach", "9=0", expected=not_free)
    run = Run()
    run.controller(alice_talk(), 0, 0)
    run.switch(switch_talk(), 0)
    alone = f"packet 1: {of_none} that is up and has no other one to it\n"
    yield run.case("a controller before its switch", expected=alone)
    not_up = f"packet 1: --attach 1=0 {given} 0, which is not up\n"
    yield run.case("a controller before its switch, which is given", "--attach", "1=0", expected=not_up)


def answered(talk):
    """A controller answers a call, and is greeted."""
    return [talk.syn_ack(), talk.from_client(0, HELLO)]


def closed(talk, flags=FIN):
    """The proxy ends the connection of a switch, which has ended it behind its features."""
    return talk.from_server(8, b"", flags | ACK, seen=33)


def calls_over_ends():
    """Switches end between the proxy's call to a controller and its answer."""
    one, two, alice, later = switch_talk(), switch_talk("10.0.0.10:40000"), alice_talk(), alice_talk("10.0.0.1:50002")
    run = Run()
    run.switch(one, 0, 0xA1)
    run.switch(two, 1, 0xA2)
    run.pass_(alice.syn())
    run.make(one.from_client(32, b"", FIN | ACK), SWITCH_DOWN)
    run.make(two.from_client(32, b"", RST), SWITCH_DOWN, switch=1)
    run.pass_(*answered(alice))
    yield run.case("a call, and both switches end before the answer")
    run = Run()
    run.switch(one, 0, 0xA1)
    run.switch(two, 1, 0xA2)
    run.controller(later, 0, 0, 0xA1)
    run.pass_(alice.syn())
    run.make(one.from_client(32, b"", FIN | ACK), SWITCH_DOWN)
    run.pass_(*answered(alice))
    run.note(SLICE_UP, switch=1)
    yield run.case("a call, and a switch ends before the answer that had a connection to this slot")


def calls_over_only_ends():
    """The only switch ends between the proxy's call to a controller and its answer, and connects again."""
    one, alice = switch_talk(), alice_talk()
    again, later = switch_talk("10.0.0.9:40001"), alice_talk("10.0.0.1:50002")
    run = Run()
    run.switch(one, 0, 0xA1)
    run.pass_(alice.syn())
    run.make(one.from_client(32, b"", FIN | ACK), SWITCH_DOWN)
    run.pass_(*answered(alice), alice.from_server(0, ECHO))
    yield run.case("a call whose only switch ends before the answer")
    run.pass_(closed(one))
    run.switch(again, 1, 0xA1)
    run.controller(later, 0, 1)
    yield run.case("a call whose only switch ends before the answer, and it connects again")
    run = Run()
    run.switch(one, 0, 0xA1)
    run.pass_(alice.syn())
    run.make(one.from_client(32, b"", FIN | ACK), SWITCH_DOWN)
    run.switch(again, 1, 0xA1)
    run.pass_(*answered(alice), alice.from_server(0, ECHO), alice.from_server(12, b"", FIN | ACK), closed(one))
    run.controller(later, 0, 1, 0xA1)
    yield run.case("a call whose switch connects again before the answer")


def calls_over_one_end():
    """One of two switches ends between the proxy's call to a controller and its answer: whose is it?"""
    none_up = "packet 9: this connection to slot 0 is of no switch that is up"
    given = "packet 9: --attach 9=2 says that this connection to slot 0 is of switch 2, which is not up\n"
    for name, datapath, words, expected in (
        ("nothing tells", None, [], "packet 9: this connection to slot 0 may be of switch 0 or 1; --attach 9=SWITCH says of which it is\n"),
        ("the id is of the one that is up", 0xA2, [], SLICE_BYTES),
        ("the id is of the one that has ended", 0xA1, [], None),
        ("the id is of another one", 0xA3, [], none_up),
        ("the one that is up is given", None, ["--attach", "9=1"], SLICE_BYTES),
        ("the one that has ended is given", None, ["--attach", "9=0"], None),
        ("another one is given", None, ["--attach", "9=2"], given),
    ):
        run, one, alice = Run(), switch_talk(), alice_talk()
        run.switch(one, 0, 0xA1)
        run.switch(switch_talk("10.0.0.10:40000"), 1, 0xA2)
        run.pass_(alice.syn())
        run.make(one.from_client(32, b"", FIN | ACK), SWITCH_DOWN)
        run.pass_(*answered(alice))
        if expected == SLICE_BYTES:
            run.note(SLICE_UP, switch=1)
        if datapath is not None:
            run.pass_(alice.from_client(8, features_of(datapath)))
        run.pass_(alice.from_server(0, ECHO))
        if expected == SLICE_BYTES:
            run.note(SLICE_BYTES, ECHO, switch=1)
        yield run.case(f"a call over the end of one of two switches, {name}", *words, expected=expected if isinstance(expected, str) else None)


def call_behind_end(end_, before, behind, datapath=None, switch=None):
    """The run of two switches, of which the first ends, and of a call behind that: it is recorded of a switch, or of none."""
    run, alice = Run(), alice_talk()
    run.switch(switch_talk(), 0, 0xA1)
    run.switch(switch_talk("10.0.0.10:40000"), 1, 0xA2)
    run.make(end_, SWITCH_DOWN)
    run.pass_(*before, alice.syn(), *answered(alice))
    if switch is not None:
        run.note(SLICE_UP, switch=switch)
    if datapath is not None:
        run.pass_(alice.from_client(8, features_of(datapath)))
    run.pass_(alice.from_server(0, ECHO))
    if switch is not None:
        run.note(SLICE_BYTES, ECHO, switch=switch)
    run.pass_(*behind)
    return run


def calls_behind_ends():
    """The proxy calls a controller behind the end of one of two switches, and doesn't show before that it knows of it: whose is it?"""
    one = switch_talk()
    ended, heard = one.from_client(32, b"", FIN | ACK), one.from_server(8, seen=33)
    for name, before, behind in (
        ("the proxy ends behind it", [], [closed(one)]),
        ("the proxy resets behind it", [], [closed(one, RST)]),
        ("the proxy acknowledges before it, and ends behind it", [heard], [closed(one)]),
        ("the proxy acknowledges before it, and resets behind it", [heard], [closed(one, RST)]),
        ("the proxy acknowledges behind it", [], [heard, heard]),
        ("the proxy acknowledges the bytes alone before it", [one.from_server(8, seen=32)], []),
        ("the proxy acknowledges before it, and the switch resets behind it", [heard], [one.from_client(33, b"", RST)]),
        ("a reset of the connection before stands before it", [one.from_client(-90_000, b"", RST)], []),
        ("nothing is seen of the proxy", [], []),
    ):
        number = 10 + len(before)
        text = f"packet {number}: this connection to slot 0 may be of switch 0 or 1; --attach {number}=SWITCH says of which it is\n"
        for switch_name, datapath, words, expected in (
            ("nothing tells", None, [], text),
            ("the id is of the one that is up", 0xA2, [], None),
            ("the id is of the one that has ended", 0xA1, [], None),
            ("the one that is up is given", None, ["--attach", f"{number}=1"], None),
            ("the one that has ended is given", None, ["--attach", f"{number}=0"], None),
        ):
            run = call_behind_end(ended, before, behind, datapath, 1 if "is up" in switch_name else None)
            yield run.case(f"a call behind an end, {name}, {switch_name}", *words, expected=expected)


def calls_behind_known_ends():
    """The same where the proxy shows before that it knows of the end: the call isn't of the switch that has ended."""
    one = switch_talk()
    ended, reset, heard = one.from_client(32, b"", FIN | ACK), one.from_client(32, b"", RST), one.from_server(8, seen=33)
    for name, end_, before, behind in (
        ("the proxy ended before it", ended, [closed(one)], []),
        ("the proxy ended before it, and does so again", ended, [closed(one)], [closed(one), closed(one, RST)]),
        ("the proxy reset before it", ended, [closed(one, RST)], []),
        ("the proxy acknowledged before it, and doesn't end", ended, [heard], [heard]),
        ("the switch reset", reset, [], []),
        ("the switch reset, and the proxy resets behind it", reset, [], [one.from_server(8, b"", RST)]),
        ("the switch ended and reset", ended, [one.from_client(33, b"", RST)], []),
        ("the proxy ended first", one.from_server(8, b"", FIN | ACK, seen=32), [], [ended]),
    ):
        number = 10 + len(before)
        given = f"packet {number}: --attach {number}=0 says that this connection to slot 0 is of switch 0, which is not up\n"
        none = f"packet {number}: this connection to slot 0 is of no switch that is up"
        for switch_name, datapath, words, expected in (
            ("nothing tells", None, [], None),
            ("the id is of the one that is up", 0xA2, [], None),
            ("the id is of the one that has ended", 0xA1, [], none),
            ("the one that has ended is given", None, ["--attach", f"{number}=0"], given),
        ):
            run = call_behind_end(end_, before, behind, datapath, 1)
            yield run.case(f"a call behind an end that is known, {name}, {switch_name}", *words, expected=expected)


def calls_behind_only_ends():
    """The proxy calls a controller behind the end of its only switch, or of both switches."""
    one, two = switch_talk(), switch_talk("10.0.0.10:40000")
    ended = one.from_client(32, b"", FIN | ACK)
    for name, end_, before, is_known in (
        ("the proxy ends behind it", ended, [], False),
        ("the proxy ended before it", ended, [closed(one)], True),
        ("the switch reset", one.from_client(32, b"", RST), [], True),
    ):
        run, alice = Run(), alice_talk()
        run.switch(one, 0, 0xA1)
        run.make(end_, SWITCH_DOWN)
        run.pass_(*before, alice.syn(), *answered(alice), alice.from_server(0, ECHO))
        if end_ is ended:
            run.pass_(closed(one))
        none = f"packet {6 + len(before)}: this connection to slot 0 is of no switch that is up and has no other one to it\n"
        yield run.case(f"a call behind its only switch's end, {name}", expected=none if is_known else None)
    for name, behind in {"the proxy ends both behind it": [closed(one), closed(two)], "nothing is seen of the proxy": []}.items():
        run, alice = Run(), alice_talk()
        run.switch(one, 0, 0xA1)
        run.switch(two, 1, 0xA2)
        run.make(ended, SWITCH_DOWN)
        run.make(two.from_client(32, b"", FIN | ACK), SWITCH_DOWN, switch=1)
        run.pass_(alice.syn(), *answered(alice), *behind)
        yield run.case(f"a call behind both switches' ends, {name}")


def calls_behind_two_ends():
    """Two of three switches end, and the proxy calls a controller."""
    one, two, third = switch_talk(), switch_talk("10.0.0.10:40000"), switch_talk("10.0.0.11:40000")
    for name, before, behind, numbers in (
        ("both ends in turn", [closed(one)], [closed(two)], "1 or 2"),
        ("the second end first", [closed(two)], [closed(one)], "0 or 2"),
        ("neither end", [], [closed(one), closed(two)], "0 or 1 or 2"),
    ):
        run = Run()
        for number, talk in enumerate((one, two, third)):
            run.switch(talk, number, 0xA1 + number)
        run.make(one.from_client(32, b"", FIN | ACK), SWITCH_DOWN)
        run.make(two.from_client(32, b"", FIN | ACK), SWITCH_DOWN, switch=1)
        run.pass_(*before, *alice_talk().opening(HELLO), *behind)
        yield run.case(f"a call behind two switches' ends, and the proxy knows {name}",
                       expected=f"packet {15 + len(before)}: this connection to slot 0 may be of switch {numbers}; --attach")


def calls_beside_ends():
    """Calls that aren't of a switch that has ended: it had a connection to the slot, or the capture has packets of its end late."""
    one, two, alice = switch_talk(), switch_talk("10.0.0.10:40000"), alice_talk("10.0.0.1:50002")
    run = Run()
    run.switch(one, 0, 0xA1)
    run.controller(alice_talk(), 0, 0)
    run.switch(two, 1, 0xA2)
    run.make(one.from_client(32, b"", FIN | ACK), SWITCH_DOWN)
    run.controller(alice, 0, 1)
    run.pass_(closed(one))
    yield run.case("a call behind the end of a switch that had a connection to this slot")
    run = Run()
    run.switch(one, 0, 0xA1)
    run.switch(two, 1, 0xA2)
    run.pass_(one.from_server(8, b"", FIN | ACK, seen=44))
    run.controller(alice, 0, 1)
    run.make(one.from_client(32, ECHO), SWITCH_BYTES, ECHO)
    run.note(SWITCH_DOWN)
    yield run.case("a call behind the proxy's end, and before the bytes that this counts")
    run = Run()
    run.switch(one, 0, 0xA1)
    run.switch(two, 1, 0xA2)
    run.pass_(one.from_server(8, seen=33))
    run.make(one.from_client(32, b"", FIN | ACK), SWITCH_DOWN)
    run.controller(alice, 0, 1)
    yield run.case("a call behind an end that the proxy acknowledges before it is captured")


def calls_behind_ends_and_beginnings():
    """Calls behind the end of a switch that has connected again, so that both of its connections have one datapath id."""
    one, alice = switch_talk(), alice_talk()
    either = "packet 10: this connection to slot 0 may be of switch 0 or 1; --attach 10=SWITCH says of which it is\n"
    for port, known, behind, expected in (
        (40001, "the proxy ends", [closed(one)], None),
        (40001, "the proxy acknowledges", [one.from_server(8, seen=33)], None),
        (40001, "nothing is seen of the proxy", [], either),
        # A port isn't used again before the connection that had it is over on both sides.
        (40000, "nothing is seen of the proxy", [], None),
    ):
        run = Run()
        run.switch(one, 0, 0xA1)
        run.make(one.from_client(32, b"", FIN | ACK), SWITCH_DOWN)
        run.pass_(*behind)
        run.switch(switch_talk(f"10.0.0.9:{port}", first_of_client=9999), 1, 0xA1)
        run.controller(alice, 0, 1, 0xA1)
        yield run.case(f"a call behind a switch that connects again from port {port}, {known}", expected=expected)
    run, again = Run(), switch_talk(first_of_client=9999)
    run.switch(one, 0, 0xA1)
    run.switch(switch_talk("10.0.0.10:40000"), 1, 0xA2)
    run.make(one.from_client(32, b"", FIN | ACK), SWITCH_DOWN)
    run.pass_(one.from_server(8, seen=33))
    run.controller(alice, 0, 1)
    run.switch(again, 2, 0xA1)
    yield run.case("a call behind an end that the proxy acknowledges, and before the switch connects again from its port")


def calls_behind_half_open():
    """Calls behind the SYN of a switch from the port of its connection, which it has lost: the answer shows that this is over."""
    one, again, alice = switch_talk(), switch_talk(first_of_client=500), alice_talk()
    either = "packet 10: this connection to slot 0 may be of switch 0 or 1; --attach 10=SWITCH says of which it is\n"
    refusal, lost = again.from_server(-1, b"", RST | ACK), one.from_client(32, b"", RST)
    for name, before, behind, expected in (
        ("before the answer", [], [again.syn_ack()], either),
        ("behind the answer", [again.syn_ack()], [], None),
        ("behind a refusal", [refusal], [again.syn(), again.syn_ack()], None),
        ("behind a reset, and the answer to the next SYN", [one.from_server(8, seen=32), lost, again.syn(), again.syn_ack()], [], None),
        ("without the answer in the capture", [], [], either),
    ):
        run = Run()
        run.switch(one, 0, 0xA1)
        run.switch(switch_talk("10.0.0.10:40000"), 1, 0xA2)
        run.make(again.syn(), SWITCH_DOWN)
        run.pass_(*before)
        run.controller(alice, 0, 1)
        run.pass_(*behind)
        run.make(again.from_client(0), SWITCH_UP, switch=2)
        yield run.case(f"a call behind a switch's SYN from the port of its connection, {name}", expected=expected)
    run.controller(alice_talk("10.0.0.1:50002"), 0, 2)
    yield run.case("calls behind a switch's SYN from the port of its connection, without the answer, and behind what follows on that",
                   "--attach", "10=1")


def calls_over_beginnings():
    """Switches connect between the proxy's call to a controller and its answer: it isn't theirs."""
    alice, one, two = alice_talk(), switch_talk(), switch_talk("10.0.0.10:40000")
    run = Run()
    run.switch(one, 0, 0xA1)
    run.pass_(alice.syn())
    run.switch(two, 1, 0xA2)
    run.pass_(*answered(alice))
    run.note(SLICE_UP)
    run.make(alice.from_server(0, ECHO), SLICE_BYTES, ECHO)
    yield run.case("a call, and another switch connects before the answer")
    none = "packet 8: this connection to slot 0 is of no switch that is up and has no other one to it; --attach 8=SWITCH says of which it is\n"
    for name, datapath in {"": None, ", and its id is sent": 0xA2}.items():
        run = Run()
        run.switch(one, 0, 0xA1)
        run.controller(alice_talk("10.0.0.1:50002"), 0, 0)
        run.pass_(alice.syn())
        run.switch(two, 1, 0xA2)
        run.pass_(*answered(alice))
        run.note(SLICE_UP, switch=1)
        if datapath:
            run.pass_(alice.from_client(8, features_of(datapath)))
        yield run.case(f"a call before its switch is up{name}", expected=none)
        yield run.case(f"a call before its switch is up{name}, which is given", "--attach", "8=1")
    run = Run()
    run.switch(one, 0, 0xA1)
    run.pass_(alice.syn())
    run.switch(two, 1, 0xA2)
    run.make(two.from_client(32, b"", FIN | ACK), SWITCH_DOWN, switch=1)
    run.pass_(*answered(alice))
    run.note(SLICE_UP)
    yield run.case("a call, and another switch comes and goes before the answer")
    given = "packet 5: --attach 5=1 says that this connection to slot 0 is of switch 1, which is not up\n"
    yield run.case("a call, and another switch comes and goes before the answer, which is given", "--attach", "5=1", expected=given)


def translated():
    """Captures at both sides of a translation of the proxy's address: each packet stands in it twice."""

    def called(talk):
        return [*talk.opening(), talk.from_client(0, HELLO + features_of(0xA1)), talk.from_server(0, HELLO, seen=40), talk.from_client(40, seen=8)]

    def greeted(talk):
        return [*talk.opening(), talk.from_server(0, HELLO), talk.from_client(0, HELLO + features_of(0xA1), seen=8)]

    def twice(make, *talks):
        return [packet for pair in zip(*(make(talk) for talk in talks)) for packet in pair]

    inside, outside = "172.17.0.2", "10.0.0.1"
    switches = twice(greeted, switch_talk(), switch_talk(server=f"{inside}:6633"))
    text = "this SYN is that of packet {} behind a translation of the proxy's address: a capture at one interface has it once\n"
    yield refused("both sides of a translation", [*switches, *called(alice_talk())], "packet 2: " + text.format(1))
    yield refused("both sides of a translation, without the SYNs", switches[2:], "packet 2: " + text.format(1))
    port = ["--switch-port", f"{outside}:6633", *SLICES]
    told = [record(SWITCH_UP, 4), record(SWITCH_BYTES, 8, HELLO + features_of(0xA1))]
    yield Case("both sides of a translation, and the port of one address", pcap(timed([*switches, *called(alice_talk())])),
               recording(*told, record(SLICE_UP, 12), record(SLICE_BYTES, 14, HELLO)), port)
    calls = twice(called, alice_talk(f"{inside}:50000"), alice_talk(f"{outside}:50000"))
    yield Case("both sides of a translation of the proxy's calls", pcap(timed([*switches, *calls])), "packet 12: " + text.format(11), port)
    web = [Talk(f"10.0.0.9:{port}", f"{address}:80").syn() for port in (4, 6633) for address in (inside, outside)]
    yield one("both sides of a translation of other TCP", [*web, *switch_talk().opening()], record(SWITCH_UP, 6))
    for name, second in {"another first number": switch_talk(server=f"{inside}:6633", first_of_client=9),
                         "another client's port": switch_talk("10.0.0.9:40001", f"{inside}:6633")}.items():
        yield one(f"two addresses of the proxy, and {name}", [*switch_talk().opening(), *second.opening()],
                  record(SWITCH_UP, 2), record(SWITCH_UP, 5, switch=1))


def features():
    """Where the datapath id is found in what the proxy tells a controller."""
    one, two = 0x1122334455667788, 0x2122334455667788
    told = HELLO + features_of(one, 1 << 31)
    ambiguous = "packet 9: this connection to slot 0 may be of switch 0 or 1"
    streams = {
        "in one piece": ([told], 0),
        "in two pieces": ([told[:20], told[20:]], 0),
        "in single bytes": ([told[at : at + 1] for at in range(len(told))], 0),
        "with ports": ([HELLO + ECHO + features_of(two, 16, [0, 0, 0])], 1),
        "the first one": ([features_of(two) + features_of(one)], 1),
        "the first one, in pieces": ([features_of(two), features_of(one)], 1),
        "none": ([HELLO], None),
        "not whole": ([told[:-1]], None),
        "of another version": ([b"\4" + told[9:]], None),
        "of another type": ([b"\1\5" + told[10:]], None),
        "too short": ([b"\1\6\0\x10" + told[12:24]], None),
        "of a wrong length": ([b"\1\6\0\x28" + told[12:] + bytes(8)], None),
        "behind a message of a bad length": ([b"\1\0\0\7\0\0\0" + told[8:]], None),
        "behind a message without length": ([bytes(8), told], None),
    }
    for name, (pieces, switch) in streams.items():
        run, alice = Run(), alice_talk()
        for number, datapath in enumerate((one, two)):
            run.switch(switch_talk(f"10.0.1.{number}:40000"), number, datapath)
        run.controller(alice, 0, switch or 0)
        at = 8
        for piece in pieces:
            run.pass_(alice.from_client(at, piece))
            at += len(piece)
        yield run.case(f"a datapath id, {name}", expected=ambiguous if switch is None else None)


def hidden_features():
    """A datapath id that is sent in the wrong order, or not to be read."""
    one, two = 0x1122334455667788, 0x2122334455667788
    told = HELLO + features_of(one, 1 << 31)
    run, alice, switch = Run(), alice_talk(), switch_talk()
    run.switch(switch, 0)
    run.pass_(switch.from_server(0, HELLO[:4]))
    run.make(switch.from_client(0, features_of(one, 16)), SWITCH_BYTES, features_of(one, 16))
    run.switch(switch_talk("10.0.1.2:40000"), 1, two)
    run.pass_(*alice.opening())
    run.note(SLICE_UP)
    run.pass_(alice.from_client(20, told[20:]), alice.from_client(0, told[:20]))
    yield run.case("a datapath id, out of order, and the switch is sent half a message")
    run = Run()
    run.switch(switch_talk(), 0, one)
    run.switch(switch_talk("10.0.1.2:40000"), 1, two)
    run.pass_(*alice.opening(), alice.from_client(8, features_of(one)))
    unclear = "packet 9: this connection to slot 0 may be of switch 0 or 1"
    yield run.case("a datapath id, behind a gap", expected=unclear)
    cut = ethernet(alice.from_client(0, HELLO))
    told = pcap_packet(12, cut[:54], full=len(cut)) + pcap_packet(13, ethernet(alice.from_client(8, features_of(one))))
    yield Case("a datapath id, behind bytes that are cut off", pcap(timed(run.packets[:-1])) + told, unclear)


def numbers():
    """The switches' numbers, and their limit."""
    run = Run()
    talks = [switch_talk(f"10.0.1.{number}:40000") for number in range(16)]
    for number, talk in enumerate(talks):
        run.switch(talk, number)
    turned = switch_talk("10.0.2.1:40000")
    run.pass_(*turned.opening(), turned.from_server(0, b"", FIN | ACK))
    yield run.case("sixteen switches, and one that isn't taken up")
    for number in (11, 3):
        run.make(talks[number].from_client(0, b"", RST), SWITCH_DOWN, switch=number)
    for number in (3, 11):
        run.switch(switch_talk(f"10.0.3.{number}:40000"), number)
    yield run.case("numbers come again")
    run.pass_(*switch_talk("10.0.4.1:40000").opening())
    yield run.case("seventeen switches", expected=f"packet {len(run.packets)}: more than 16 switches")
