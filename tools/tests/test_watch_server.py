"""The page and the metrics of `flowvisor-tool watch`, and watch as a process of its own, whose capture grows."""
import contextlib
import html
import json
import pathlib
import re
import select
import shutil
import signal
import socket
import subprocess
import sys
import tempfile
import threading
import time
import unittest
import unittest.mock
import urllib.request

from running import SCRIPT

from made_captures import interface, pcap_head, section, simple
from test_watch import UP
from watched import POLICY, START, SWITCH, Scene, Watched, busy_scene

from devices.traffic import ACK, FIN, RST
from flowvisor_tool.watching.page import PAGE
from flowvisor_tool.watching.server import LARGEST_HEAD, MOST_CONNECTIONS, Server

# In seconds.
LONGEST_WAIT = 20
GET = b"GET / HTTP/1.1\r\nHost: a\r\n\r\n"
READ_BY_PROMETHEUS = """
import sys
from prometheus_client.parser import text_string_to_metric_families
for family in text_string_to_metric_families(sys.stdin.read()):
    for sample in family.samples:
        print(family.type, sample.name, sorted(sample.labels.items()), sample.value)
"""


class Served(unittest.TestCase):
    """What watch serves of a scene."""

    def setUp(self):
        self.watched = busy_scene().watched()
        server = self.watched.watcher.serve("127.0.0.1", 0)
        self.addCleanup(server.close)
        self.end = server.end()
        self.url = f"http://127.0.0.1:{self.end[1]}"

    def get(self, path):
        with urllib.request.urlopen(self.url + path, timeout=LONGEST_WAIT) as answer:
            return answer.headers, answer.read().decode()

    def answer(self, request):
        """The status that a request is answered, or None where the connection is closed without one."""
        with socket.create_connection(self.end, timeout=LONGEST_WAIT) as connection:
            connection.sendall(request)
            connection.shutdown(socket.SHUT_WR)
            head = b""
            while data := connection.recv(4096):
                head += data
        return int(head.split()[1]) if head else None

    def test_page(self):
        headers, text = self.get("/")
        self.assertEqual((headers["Content-Type"], text), ("text/html; charset=utf-8", PAGE))
        self.assertIn("default-src 'none'", headers["Content-Security-Policy"])
        # Nothing is loaded from elsewhere: the only address in it is the name of SVG.
        self.assertEqual(re.findall(r"\w+://[^\s\"]+", text), ["http://www.w3.org/2000/svg"])
        self.assertNotRegex(text, r"innerHTML|<link|<img|\ssrc=|@import|url\(")

    @unittest.skipUnless(shutil.which("chromium"), "there is no chromium")
    def test_page_in_a_browser(self):
        """The tables are there, a plot for each slice, and what happened."""
        with tempfile.TemporaryDirectory() as place:
            words = ["chromium", "--headless", "--no-sandbox", "--disable-gpu", f"--user-data-dir={place}", "--virtual-time-budget=3000"]
            done = subprocess.run([*words, "--dump-dom", self.url], capture_output=True, text=True, timeout=60, check=False)
        if done.returncode:
            self.skipTest("chromium doesn't run here")
        text = html.unescape(re.sub(r"<[^>]*>", " ", done.stdout.partition("<body>")[2].partition("<script>")[0]))
        self.assertEqual(done.stdout.count("<svg"), 2)
        self.assertIn("<polyline", done.stdout)
        for told in (
            "switch 00000000000000a1", "flow-mods: 3, as 3 to the switch", "down since 22:13:21 (0 s): its controller ended it",
            "messages refused: 1 OFPET_FLOW_MOD_FAILED OFPFMFC_EPERM", "packets for nobody: 1", "bob: down: its controller ended it",
        ):
            self.assertIn(told, text)

    def test_state(self):
        headers, text = self.get("/state.json?x=1")
        self.assertEqual(headers["Content-Type"], "application/json")
        state = json.loads(text)
        self.assertEqual(state, json.loads(json.dumps(self.watched.watcher.state())))
        (switch,) = state["switches"]
        self.assertEqual([(one["name"], one["up"]) for one in switch["slices"]], [("alice", True), ("bob", False)])
        self.assertEqual(switch["slices"][1]["reason"], "its controller ended it")

    def test_metrics(self):
        headers, text = self.get("/metrics")
        self.assertEqual(headers["Content-Type"], "text/plain; version=0.0.4; charset=utf-8")
        for line in (
            'flowvisor_switch_up{switch="00000000000000a1"} 1',
            'flowvisor_slice_up{switch="00000000000000a1",slice="alice"} 1',
            'flowvisor_slice_up{switch="00000000000000a1",slice="bob"} 0',
            'flowvisor_slice_entries{switch="00000000000000a1",slice="alice"} 3',
            'flowvisor_slice_quota_entries{switch="00000000000000a1",slice="alice"} 1024',
            'flowvisor_switch_unowned_packets_total{switch="00000000000000a1"} 1',
            'flowvisor_slice_messages_total{switch="00000000000000a1",slice="alice",direction="from_controller",type="FLOW_MOD"} 3',
            'flowvisor_slice_refused_messages_total{switch="00000000000000a1",slice="bob",type="OFPET_FLOW_MOD_FAILED",'
            'code="OFPFMFC_EPERM"} 1',
            'flowvisor_slice_rate_limit_messages_per_second{switch="00000000000000a1",slice="alice"} 1000',
            "flowvisor_capture_missing_bytes_total 0",
            f"flowvisor_capture_timestamp_seconds {START + 1}",
        ):
            self.assertIn(line, text.splitlines())
        self.assert_form(text)

    def test_metrics_before_the_first_packet(self):
        """The time of the last packet isn't 0 there: it isn't known."""
        for capture, count in ((b"", 0), (pcap_head(), 0), (section() + interface() + simple(bytes(60)), 1)):
            watched = Watched()
            watched.watcher.feed(capture)
            text = watched.watcher.metrics_text()
            self.assertIn(f"flowvisor_capture_packets_total {count}", text.splitlines())
            self.assertEqual(re.findall("^flowvisor_capture_timestamp_seconds.*", text, re.MULTILINE), [])
            self.assert_form(text)

    def assert_form(self, text):
        """Each sample is of a family that has a kind and a text, and counters end with _total."""
        kinds = dict(re.findall(r"^# TYPE (\w+) (\w+)$", text, re.MULTILINE))
        self.assertEqual(set(kinds), set(re.findall(r"^# HELP (\w+) .*\.$", text, re.MULTILINE)))
        for line in text.splitlines():
            if not line.startswith("#"):
                name = re.fullmatch(r'(flowvisor_\w+)(?:\{\w+="[^"]*"(?:,\w+="[^"]*")*\})? [0-9.e+]+', line)[1]
                self.assertEqual(kinds[name] == "counter", name.endswith("_total"), name)

    def test_metrics_as_prometheus_reads_them(self):
        for python in (sys.executable, "/usr/bin/python3"):
            with contextlib.suppress(OSError):
                words = [python, "-c", READ_BY_PROMETHEUS]
                done = subprocess.run(words, input=self.get("/metrics")[1], capture_output=True, text=True, check=False)
                if "No module named" not in done.stderr:
                    break
        else:
            self.skipTest("there is no python3-prometheus-client")
        self.assertEqual((done.returncode, done.stderr), (0, ""))
        labels = "[('slice', 'alice'), ('switch', '00000000000000a1')]"
        self.assertIn(f"gauge flowvisor_slice_up {labels} 1.0", done.stdout.splitlines())
        self.assertIn(f"counter flowvisor_slice_sent_flow_mods_total {labels} 3.0", done.stdout.splitlines())
        self.assertNotIn("unknown", done.stdout)

    def test_what_is_not_served(self):
        before = self.watched.watcher.state()
        for status, requests in {
            200: (GET, b"HEAD /metrics HTTP/1.0\r\n\r\n"),
            400: (
                b"", b"GET", b"GET / HTTP/1.1\r\n", b"\r\n\r\n", b"GET /\r\n\r\n", b"GET / FTP/1.1\r\n\r\n", b"GET  / HTTP/1.1\r\n\r\n",
                b"get / HTTP/1.1\r\n\r\n", b"GET http://a/ HTTP/1.1\r\n\r\n", b"GET / HTTP/1.1\r\nno field\r\n\r\n",
                b"POST / HTTP/1.1\r\nContent-Length: 3\r\n\r\nabc", b"DELETE /metrics HTTP/1.1\r\n\r\n",
                b"\0\xff\xfe" * 50 + b"\r\n\r\n", b"GET /" + b"a" * 300 + b" HTTP/1.1\r\n\r\n", b"\x16\x03\x01" + bytes(200),
            ),
            404: (b"GET /x HTTP/1.1\r\n\r\n", b"GET /../etc/passwd HTTP/1.1\r\n\r\n", b"GET //metrics HTTP/1.1\r\n\r\n"),
        }.items():
            for request in requests:
                self.assertEqual(self.answer(request), status, request)
        self.assertEqual(self.watched.watcher.state(), before)

    def test_a_head_without_an_end(self):
        with socket.create_connection(self.end, timeout=LONGEST_WAIT) as connection, contextlib.suppress(ConnectionError):
            connection.sendall(b"GET / HTTP/1.1\r\n" + b"a: b\r\n" * (LARGEST_HEAD // 3))
            self.assertIn(connection.recv(4096)[:12], (b"HTTP/1.1 400", b""))
        self.assertEqual(self.answer(GET), 200)

    def test_a_head_that_comes_byte_by_byte(self):
        with unittest.mock.patch("flowvisor_tool.watching.server.LONGEST_WAIT", 0.5), contextlib.suppress(ConnectionError):
            begun = time.monotonic()
            with socket.create_connection(self.end, timeout=0.1) as connection:
                answer = None
                while answer is None and time.monotonic() - begun < LONGEST_WAIT:
                    connection.sendall(b"a")
                    with contextlib.suppress(TimeoutError):
                        answer = connection.recv(12)
            self.assertIn(answer, (b"HTTP/1.1 400", b""))

    def test_head_has_no_body(self):
        with socket.create_connection(self.end, timeout=LONGEST_WAIT) as connection:
            connection.sendall(b"HEAD / HTTP/1.1\r\n\r\n")
            data = b""
            while part := connection.recv(1 << 16):
                data += part
        self.assertTrue(data.endswith(b"\r\n\r\n"))
        self.assertIn(f"Content-Length: {len(PAGE.encode())}\r\n".encode(), data)


class Places(unittest.TestCase):
    def test_sixteen_connections_at_once(self):
        """As many as have a place are held up by what they ask for; one more is answered once a place is free."""
        gate, begun = threading.Event(), threading.Semaphore(0)

        def wait():
            begun.release()
            gate.wait(LONGEST_WAIT)
            return "text/plain", "done"

        server = Server("127.0.0.1", 0, {"/": wait})
        server.start()
        self.addCleanup(server.close)
        with contextlib.ExitStack() as stack:
            clients = [
                stack.enter_context(socket.create_connection(server.end(), timeout=LONGEST_WAIT)) for _each in range(MOST_CONNECTIONS + 1)
            ]
            for client in clients:
                client.sendall(GET)
            for _each in range(MOST_CONNECTIONS):
                self.assertTrue(begun.acquire(timeout=LONGEST_WAIT))
            self.assertFalse(begun.acquire(timeout=0.3))
            self.assertEqual(select.select(clients, [], [], 0)[0], [])
            gate.set()
            for client in clients:
                self.assertEqual(client.recv(12), b"HTTP/1.1 200")


class Live(unittest.TestCase):
    """Watch by itself, whose capture comes by a pipe or in a file that grows."""

    def run_watch(self, *words, stdin=subprocess.PIPE):
        words = [SCRIPT, "watch", "--log", "--http", "127.0.0.1:0", POLICY, *words]
        process = subprocess.Popen(words, stdin=stdin, stdout=subprocess.PIPE, stderr=subprocess.PIPE)
        self.addCleanup(process.wait)
        self.addCleanup(process.kill)
        self.addCleanup(process.stdout.close)
        self.addCleanup(process.stderr.close)
        url = process.stderr.readline().decode().strip()
        self.assertRegex(url, r"http://127\.0\.0\.1:\d+/")
        return process, url

    def lines(self, process, count):
        return [process.stdout.readline().decode().rstrip().partition(" ")[2] for _each in range(count)]

    def scene_of_now(self):
        scene = Scene(connect=False)
        scene.site.wire.time = time.time()
        scene.site.connect_switch(SWITCH)
        for slot in (0, 1):
            scene.site.connect_controller(SWITCH, slot)
        return scene

    def test_a_controller_that_is_killed(self):
        process, url = self.run_watch()
        scene = self.scene_of_now()
        process.stdin.write(scene.capture())
        process.stdin.flush()
        self.assertEqual(self.lines(process, len(UP)), UP)
        count = len(scene.parts)
        for slot, flags, does in ((0, RST | ACK, "reset"), (1, FIN | ACK, "ended")):
            scene.site.wire.time = killed = time.time()
            scene.site.lose_controller(SWITCH, slot, flags)
            process.stdin.write(b"".join(scene.parts[count:]))
            process.stdin.flush()
            count = len(scene.parts)
            name = ("alice", "bob")[slot]
            self.assertEqual(self.lines(process, 1), [f"switch 00000000000000a1: {name}: down: its controller {does} it"])
            with urllib.request.urlopen(f"{url}metrics", timeout=LONGEST_WAIT) as answer:
                before = answer.read().decode()
            while f'flowvisor_slice_up{{switch="00000000000000a1",slice="{name}"}} 0' not in before:
                time.sleep(0.1)
                with urllib.request.urlopen(f"{url}metrics", timeout=LONGEST_WAIT) as answer:
                    before = answer.read().decode()
            self.assertLess(time.time() - killed, 2)
        process.stdin.close()
        self.assertEqual(process.wait(LONGEST_WAIT), 0)

    def test_is_terminated(self):
        process, _url = self.run_watch()
        process.stdin.write(self.scene_of_now().capture())
        process.stdin.flush()
        self.lines(process, len(UP))
        process.send_signal(signal.SIGTERM)
        self.assertEqual(process.wait(LONGEST_WAIT), 0)
        self.assertEqual(process.stderr.read(), b"")
        process.stdin.close()

    def test_a_file_that_grows(self):
        scene = self.scene_of_now()
        with tempfile.TemporaryDirectory() as place:
            path = pathlib.Path(place) / "run.pcap"
            with open(path, "wb") as file:
                file.write(scene.capture()[:-30])
                file.flush()
                process, _url = self.run_watch(path, stdin=subprocess.DEVNULL)
                self.assertEqual(self.lines(process, 3), UP[:3])
                file.write(scene.capture()[-30:])
            scene_end = len(scene.parts)
            scene.site.lose_controller(SWITCH, 1)
            self.assertEqual(self.lines(process, 1), UP[3:])
            with open(path, "ab") as file:
                file.write(b"".join(scene.parts[scene_end:]))
            self.assertEqual(self.lines(process, 1), ["switch 00000000000000a1: bob: down: its controller ended it"])
            with open(path, "wb"):
                pass
            self.assertEqual(process.wait(LONGEST_WAIT), 1)
            self.assertIn(b"the capture was cut off while it was read", process.stderr.read())

    def test_a_place_that_is_taken(self):
        with socket.create_server(("127.0.0.1", 0)) as taken:
            words = [SCRIPT, "watch", "--http", f"127.0.0.1:{taken.getsockname()[1]}", POLICY]
            done = subprocess.run(words, stdin=subprocess.DEVNULL, capture_output=True, text=True, timeout=LONGEST_WAIT, check=False)
        self.assertEqual((done.returncode, done.stdout, done.stderr), (1, "", "flowvisor-tool: --http: Address already in use\n"))


if __name__ == "__main__":
    unittest.main()
