#!/usr/bin/env python3
"""A stand-in for the program in the tests of serve.py: it accepts each plan, and `drive` and `serve` say what the model
says, or something else where the variable FAULT has the name of a fault. Of updates it plans none."""
import json
import os
import pathlib
import sys

sys.path.insert(0, str(pathlib.Path(__file__).resolve().parent.parent))
import serve
import serve_model

FAULT = os.environ.get("FAULT", "")


class Wrong(serve_model.Serve):
    """A model with a fault."""

    def start(self):
        if FAULT == "starts without sessions":
            self.refuse_unless_open = lambda changes: None
        super().start()

    def back(self):
        if FAULT == "begins anew to count":
            self.last_xid = 0
        super().back()

    def dead(self, name):
        if FAULT != "waits for the dead":
            super().dead(name)

    def log_dead(self, way):
        if FAULT == "forgets the changes of the dead":
            self.in_force = set()
        else:
            super().log_dead(way)

    def reopen(self, name):
        if FAULT == "says of the dead that they are open" and self.sessions[name].state == serve_model.DEAD:
            self.sessions[name].state = serve_model.OPEN
        else:
            super().reopen(name)

    def send_again(self, name):
        if FAULT != "forgets what waits":
            super().send_again(name)

    def take(self, name, session, taken):
        if FAULT == "takes any answer" and taken[1] == serve_model.BARRIER_REPLY and session.due:
            taken = taken[:4] + session.due[0][0].to_bytes(4, "big")
        super().take(name, session, taken)


def main(words):
    if words[0] not in ("check", "drive", "serve") or (words[0] == "serve" and FAULT == "has no serve"):
        sys.exit(2)
    if words[0] == "check":
        print("refused" if FAULT == "refuses" else "accepted")
        sys.exit(FAULT == "refuses")
    topology, old, _, _, plan = (json.loads(pathlib.Path(word).read_text()) for word in words[1:6])
    model = Wrong(topology, old, plan)
    blocks = [model.begin()]
    if words[0] == "drive":
        blocks += [model.line(line) for line in serve_model.lines_of(pathlib.Path(words[6]).read_bytes())]
        made = type("Made", (), {"names": model.switches, "blocks": blocks})
        sys.stdout.write(serve.report_of(made))
        return
    held = b""
    for block in blocks:
        sys.stdout.write("".join(f"{line}\n" for line in block))
    sys.stdout.flush()
    for line in sys.stdin.buffer:
        held += "".join(f"{said}\n" for said in model.line(line.removesuffix(b"\n"))).encode()
        if FAULT != "is late" or len(held) > 10000:
            sys.stdout.buffer.write(held)
            sys.stdout.flush()
            held = b""
    sys.stdout.buffer.write(held)
    sys.exit(1 if FAULT == "ends badly" else 0)


main(sys.argv[1:])
