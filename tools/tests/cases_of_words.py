"""Cases of from-pcap: the words that give addresses, slices and switches."""
from from_pcap_cases import Case, HOSTS, OPTIONS, POLICY, SLICES, records_of, run_of, small_run
from made_captures import alice_talk, bob_talk, pcap, switch_talk, timed
from sunworsted import SLICE_UP, record, recording

NOT_ACCEPTED = "it isn't accepted: flowvisor-tool lint prints why"


def options():
    """The ways to say which connections are recorded."""
    packets, expected = small_run()
    capture = pcap(timed(packets))
    port = ["--switch-port", "6633"]
    yield Case("addresses of a policy", capture, expected, [*port, "--policy", "policy.toml"])
    turned = [*port, "--policy", "policy.toml", "--slice", "alice=10.0.0.6:6654", "--slice", "1=10.0.0.5:6653"]
    yield Case("names and slots", capture, recording(*other_slots(expected)), turned)
    yield Case("the port of one address", capture, expected, ["--switch-port", "10.0.0.1:6633", *SLICES])
    yield Case("several addresses of a slot", capture, expected, [*OPTIONS, "--slice", "0=10.0.0.7:6653"])
    same_port = run_of(switch_talk(), alice_talk(server="10.0.0.5:6633"), bob_talk())
    moved = [*port, "--slice", "0=10.0.0.5:6633", *SLICES[2:]]
    yield Case("a controller at the switches' port", pcap(timed(same_port[0])), expected, moved)
    hosts = [*port, "--policy", "policy.toml"]
    no_address = "the controller of alice, 'alice.example:6653', is no numeric address"
    yield Case("a policy with a host's name", capture, no_address, hosts, HOSTS)
    yield Case("a policy with a host's name, and its address", capture, expected, [*hosts, "--slice", "alice=10.0.0.5:6653"], HOSTS)
    unnamed = "[[slice]]\ncontroller = '10.0.0.5:1'"
    yield Case("a policy with a byte order mark", capture, expected, [*port, "--policy", "policy.toml"], "\ufeff" + POLICY)
    deep = "a = " + "[" * 9999
    refused = {"no TOML": "[", "deep nesting": deep, "no slices": "version = 1", "no name": unnamed, "a number": "slice = 1",
               "a key too many": POLICY + "speed = 1"}
    for name, policy in refused.items():
        yield Case(f"a policy with {name}", capture, NOT_ACCEPTED, hosts, policy)
    newer = POLICY + 'burst = 0x10\n[[rule]]\npriority = 1\nread = ["\\x61lice", # of TOML 1.1\n]\n'
    tables = 'version = 1\nslice = [{\n  name = "alice", controller = "10.0.0.5:6653",\n}, {name = "bob", controller = "10.0.0.6:6654"}]'
    for name, policy in {"an escape": newer, "a table over lines": tables}.items():
        yield Case(f"a policy with {name} of TOML 1.1", capture, expected, hosts, policy)
    for number in (1, 65535):
        far = run_of(switch_talk(server=f"10.0.0.1:{number}"), alice_talk(), bob_talk())
        yield Case(f"port {number}", pcap(timed(far[0])), far[1], ["--switch-port", f"{number}", *SLICES])
    yield from misspelled(capture, turned)
    yield Case("attached twice in vain", capture, "packet 98: no connection", [*OPTIONS, "--attach", "99=0", "--attach", "98=0"])
    nobody, begun = "nobody connects to", "connections begin: 1 to 10.0.0.1:6633, 1 to 10.0.0.5:6653, 1 to 10.0.0.6:6654\n"
    yield Case("another port", capture, f"{nobody} port 6634 in the capture; {begun}", ["--switch-port", "6634"])
    yield Case("another port, and controllers", capture, f"{nobody} port 6634 in the capture; {begun}", ["--switch-port", "6634", *SLICES])
    yield Case("another address", capture, f"{nobody} 10.0.0.2:6633 in the capture; {begun}", ["--switch-port", "10.0.0.2:6633"])
    yield Case("no connection at all", pcap([]), f"{nobody} port 6633 in the capture; no connection begins in it\n", port)
    yield Case("a switch that isn't taken up", pcap(timed([switch_talk().syn()])), "the capture has no connection of a switch", port)
    yield Case("one address of two slots", capture, "slots 0 and 2 have the same", [*OPTIONS, "--slice", "2=10.0.0.5:6653"])
    for count in (32, 33, 300):
        policy = "version = 1\n" + "".join(f"[[slice]]\nname = 's{slot}'\ncontroller = '10.0.1.1:{slot + 1}'\n" for slot in range(count))
        policy = policy.replace("10.0.1.1:32", "10.0.0.6:6654").replace("10.0.1.1:5'", "10.0.0.5:6653'")
        moved = recording(*(record(kind, moment, data, (4, 31)[slot] if kind >= SLICE_UP else 0) for kind, moment, data, slot, _switch
                            in records_of(expected)))
        yield Case(f"{count} slices", capture, moved if count == 32 else NOT_ACCEPTED, hosts, policy)


def misspelled(capture, turned):
    """Words that have no form."""
    port = ["--switch-port", "6633"]
    for word in ("65536", "-1", "6633x", "10.0.0.1:0", "host:6633", "::1:6633", "[10.0.0.1]:6633", ""):
        yield Case(f"the port {word!r}", capture, f"--switch-port: {word!r} isn't", [f"--switch-port={word}"], status=2)
    for word in ("0=[fd00::5:1", "0=fd00::5]:1", "0=10.0.0.5", "0=host:1", "x", ""):
        yield Case(f"the slice {word!r}", capture, f"--slice: {word!r} isn't SLICE=ADDRESS:PORT", [*port, f"--slice={word}"], status=2)
    for word in ("10.0.0.5:1", "=10.0.0.5:1", "x=10.0.0.5:1", "-1=10.0.0.5:1", "9" * 5000 + "=10.0.0.5:1"):
        yield Case(f"the slice {word!r}", capture, "--slice: ", [*port, f"--slice={word}"], status=2)
    for word in ("5", "5=", "=0", "x=0", "5=x", "5=-1", "5=0=0", "5=" + "9" * 5000, "9" * 5000 + "=0", "5=16"):
        yield Case(f"attached {word!r}", capture, f"--attach: {word!r} isn't PACKET=SWITCH", [*OPTIONS, f"--attach={word}"], status=2)
    for name, words, text in (
        ("no slot", [*port, "--slice", "32=10.0.0.5:1"], "'32' is no slot"),
        ("no slot of the policy", [*turned, "--slice", "2=10.0.0.9:1"], "'2' is neither"),
        ("no name of the policy", [*turned, "--slice", "carol=10.0.0.9:1"], "'carol' is neither a slice's name"),
        ("a name without a policy", [*port, "--slice", "alice=10.0.0.5:1"], "'alice' is no slot, and a name needs"),
    ):
        yield Case(name, capture, f"--slice: {text}", words, status=2)


def other_slots(spelled):
    """The records with slots 0 and 1 exchanged."""
    for kind, moment, data, slot, switch in records_of(spelled):
        yield record(kind, moment, data, 1 - slot if kind >= SLICE_UP else slot, switch)
