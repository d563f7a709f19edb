"""`replay` where its report can't be written."""

import asyncio
import os
import pathlib
import subprocess
import tempfile

from devices.messages import port_of
from devices.outcome import Outcome, expect
from devices.proxy import Slice, policy_text
from sunworsted import SLICE_UP, SWITCH_BYTES, SWITCH_UP, features_reply, packet_in, record, recording, tcp_packet

WRITE_FAULT = 5
LINE = b"write fault\n"
SECONDS = 30
MANY = 20_000


def recording_of(packets):
    """A recording of so many packet-ins for the first slice."""
    begin = [
        record(SWITCH_UP, 0),
        record(SWITCH_BYTES, 0, features_reply(0xFF000001, 0xA1, (1, 2, 3))),
        record(SLICE_UP, 0),
    ]
    return recording(*begin, record(SWITCH_BYTES, 0, packet_in(0, 1, tcp_packet(port_of(0))) * packets))


def replay_onto(command, output):
    """The status and the line with the report going to this file."""
    done = subprocess.run(command, stdout=output, stderr=subprocess.PIPE, timeout=SECONDS, check=False)
    return done.returncode, done.stderr


def onto_full(command):
    with open("/dev/full", "wb") as full:
        return replay_onto(command, full)


def both_onto_full(command):
    """Neither the report nor the line can be written."""
    with open("/dev/full", "wb") as full:
        done = subprocess.run(command, stdout=full, stderr=full, timeout=SECONDS, check=False)
    return done.returncode, LINE


def onto_closed(command):
    reader, writer = os.pipe()
    os.close(reader)
    try:
        return replay_onto(command, writer)
    finally:
        os.close(writer)


def onto_closing(command):
    """The reader takes some bytes, and closes the pipe."""
    with subprocess.Popen(command, stdout=subprocess.PIPE, stderr=subprocess.PIPE) as process:
        os.read(process.stdout.fileno(), 1_000)
        process.stdout.close()
        line = process.stderr.read()
        return process.wait(SECONDS), line


OUTPUTS = {
    "a full disk": onto_full,
    "a full disk, with the line too": both_onto_full,
    "a closed pipe": onto_closed,
    "a pipe that is closed meanwhile": onto_closing,
}


async def run(program):
    faults, tried = [], 0
    with tempfile.TemporaryDirectory() as name:
        policy, file = pathlib.Path(name) / "policy.toml", pathlib.Path(name) / "recording"
        policy.write_text(policy_text([Slice("s0", 6633, range(port_of(0), port_of(0) + 1))]))
        for packets in (1, MANY):
            file.write_bytes(recording_of(packets))
            for output, replay in OUTPUTS.items():
                if packets == 1 and replay is onto_closing:
                    continue
                ended = await asyncio.to_thread(replay, [program, "replay", policy, file])
                expect(faults, ended == (WRITE_FAULT, LINE), f"{output}, {packets} packets: {ended}")
                tried += 1
    outputs = ", ".join(OUTPUTS)
    seen = f"replay onto {outputs}, short reports and long ones: {tried} times status 5, with its line where it can be put"
    return Outcome(seen, faults)
