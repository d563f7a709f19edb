"""The proxies of a check, and the balancer before them."""
from devices.proxy import free_port
from sunworsted import ROOT

from .processes import is_listening, wait_for

# So that it goes on until it is stopped.
CONNECTIONS = 1_000_000_000
EXAMPLES = ROOT / "examples"
STARTED = 10


def shared_policy(processes, alice, bob):
    """The shipped policy of two slices, with these ports of their controllers."""
    policy = processes.folder / "two-slices.toml"
    text = (EXAMPLES / "two-slices.toml").read_text()
    policy.write_text(text.replace("127.0.0.1:6633", f"127.0.0.1:{alice}").replace("127.0.0.1:6634", f"127.0.0.1:{bob}"))
    return policy


def sole_policy(processes, port):
    """The policy of one slice that has everything."""
    policy = processes.folder / "sole.toml"
    policy.write_text(f'version = 1\n[[slice]]\nname = "all"\ncontroller = "127.0.0.1:{port}"\n[[rule]]\npriority = 1\nwrite = "all"\n')
    return policy


def serve(processes, program, policy, port=None):
    """Starts a proxy, and gives it and its port."""
    port = port or free_port()
    process = processes.start(f"proxy-{port}", program, "serve", policy, f"127.0.0.1:{port}", CONNECTIONS)
    wait_for("the proxy listens", STARTED, lambda: is_listening(port))
    return process, port


def balance(processes, name, ends):
    """Starts haproxy with a shipped configuration, in which ends stand for others; its first one is where it listens."""
    text = (EXAMPLES / name).read_text()
    for there, here in ends.items():
        assert there in text, f"{name} doesn't have {there}"
        text = text.replace(there, f"127.0.0.1:{here}")
    path = processes.folder / name
    path.write_text(text.replace("/etc/flowvisor", str(processes.folder)))
    processes.start("haproxy", "haproxy", "-db", "-f", path)
    wait_for("haproxy listens", STARTED, lambda: is_listening(next(iter(ends.values()))))
