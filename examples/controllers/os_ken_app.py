"""An os_ken application that leads a network from target to target: osken-manager os_ken_app.py

The variable PLANNER_JOB names a file of JSON: `topology`, `policy`, `old` (what the switches have) and `targets` are
names of files, a packet may be on its way for `wait` seconds, `datapaths` has the name of each switch by its datapath
id, in 16 hexadecimal digits, and `keeps_tables` says whether a switch that lost its connection has its table still."""
import json
import os

from eventlet import tpool
from os_ken.base import app_manager
from os_ken.controller import ofp_event
from os_ken.controller.handler import DEAD_DISPATCHER, MAIN_DISPATCHER, set_ev_cls
from os_ken.lib import hub
from os_ken.ofproto import ofproto_v1_0

import planner

STANDS = 2.0     # after so many seconds of a new connection what was sent on the old one is taken to be done or lost


class Updates(app_manager.OSKenApp):
    OFP_VERSIONS = [ofproto_v1_0.OFP_VERSION]

    def __init__(self, *words, **more):
        super().__init__(*words, **more)
        with open(os.environ["PLANNER_JOB"], encoding="utf-8") as file:
            self.job = json.load(file)
        self.datapaths, self.session, self.work = {}, None, hub.spawn(self.lead)

    def send(self, name, data):
        if name in self.datapaths and data[1] != 0:          # os_ken says HELLO itself
            self.datapaths[name].send(data)

    @set_ev_cls(ofp_event.EventOFPStateChange, [MAIN_DISPATCHER, DEAD_DISPATCHER])
    def moved(self, event):
        """A switch is connected, or its connection is lost."""
        name = self.job["datapaths"].get(f"{event.datapath.id or 0:016x}")
        if name is not None and event.state == MAIN_DISPATCHER:
            event.datapath.xid = planner.OWN_XIDS[0]         # from here on os_ken numbers messages of its own
            if self.session is None or self.job.get("keeps_tables"):         # otherwise nothing is sent to it any more
                hub.spawn_after(STANDS if self.session else 0, self.go_on, name, event.datapath)
        elif name is not None and self.datapaths.get(name) is event.datapath:
            del self.datapaths[name]

    def go_on(self, name, datapath):
        if datapath.state == MAIN_DISPATCHER:
            _ = self.session and self.session.reopen(name)
            self.datapaths[name] = datapath                  # only now: what was meant for the old one isn't for it
            _ = self.session and self.session.feed(name, planner.HELLO)

    @set_ev_cls([ofp_event.EventOFPBarrierReply, ofp_event.EventOFPErrorMsg], MAIN_DISPATCHER)
    def answered(self, event):
        name = self.job["datapaths"].get(f"{event.msg.datapath.id:016x}")
        if self.session is not None and self.datapaths.get(name) is event.msg.datapath:
            for one in self.session.feed(name, bytes(event.msg.buf)).events:
                told = one.kind, one.round, one.switch or "", one.do or "", one.rule or one.cause or ""
                self.logger.info("%s round %d %s %s %s", *told)

    def lead(self):
        """Plans, carries out, and goes on to the next target."""
        for old, target in zip([self.job["old"], *self.job["targets"]], self.job["targets"]):
            files = self.job["topology"], old, target, self.job["policy"]
            answer = tpool.execute(planner.pack, *files)
            list(map(self.logger.warning, map(str, answer.warnings)))    # sockets.py stops where there are any
            if not answer:
                return self.logger.error("%s", answer)
            while len(self.datapaths) < len(self.job["datapaths"]):
                hub.sleep(0.1)
            self.session = planner.Session(*files, answer.plan, send=self.send)
            for name in self.datapaths:
                self.session.feed(name, planner.HELLO)       # it came when the switch was connected
            while self.session.settled < self.session.rounds:
                hub.sleep(self.job["wait"])                  # packets that entered before are on their way
                self.session.start()
                while self.session.is_running and not self.session.failed:
                    hub.sleep(0.02)
                if self.session.failed:
                    return self.logger.error(f"round {self.session.settled + 1} isn't settled: {self.session.failed}")
            self.session = self.session.close()
            print(f"the switches have the tables of {target}", flush=True)
