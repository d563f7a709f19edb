"""What passes between the proxy, the switch and the controllers, captured, replayed and compared."""
from sunworsted import ROOT

from .processes import LeftOut, lacks, wait_for

TOOL = ROOT / "tools/flowvisor-tool"
STARTED = 5


class Capture:
    """A capture of some TCP ports of this machine, from now on."""

    def __init__(self, processes, ports):
        self.processes = processes
        self.path = processes.folder / "run.pcap"
        self.process = None
        if not lacks("tcpdump"):
            words = " or ".join(f"tcp port {port}" for port in ports)
            # As `watch --how` has them: without the buffer a busy machine drops packets.
            options = "-i", "lo", "-s", "0", "-B", "65536", "--immediate-mode", "-U", "-w", "-"
            self.process = processes.start("tcpdump", "tcpdump", *options, words, output=self.path)
            wait_for("tcpdump listens or ends", STARTED, lambda: self.has_begun() or self.process.poll() is not None)

    def has_begun(self):
        return self.processes.lines("tcpdump", "listening on") > 0

    def compare(self, program, policy, switch_port):
        """Raises what of the proxy's messages differs from a replay of what switches and controllers sent."""
        if self.process is None or not self.has_begun():
            raise LeftOut("there is no tcpdump that may capture")
        self.processes.end(self.process)
        recording, report = (self.processes.folder / name for name in ("run.rec", "run.report"))
        ends = "--switch-port", f"127.0.0.1:{switch_port}", "--policy", policy
        self.processes.run(TOOL, "from-pcap", *ends, self.path, recording)
        report.write_text(self.processes.run(program, "replay", policy, recording))
        self.processes.run(TOOL, "compare", *ends, self.path, report)
