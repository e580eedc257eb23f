"""The words of the planner: its commands, what stands behind each, and what each does. Help, manual, completion and the
table of the README are made of them; `tools/manual.py` writes those files, and the tests of tools/ compare them."""
from __future__ import annotations


# What the words behind a command name. In the usage of a command a word in brackets may be left out.
FILES = {
    "TOPO": (
        "the network: switches with the number of rules that each can hold, links, host ports, the VLANs that hosts"
        " use, and the VLAN ids that the planner may use as tags"
    ),
    "CONFIG": "the rules of all switches", "OLD": "the rules of all switches now",
    "NEW": "the rules of all switches as wanted",
    "POLICY": "demands: which packets must meet which waypoints in which order, and which must arrive",
    "PLAN": "rounds of changes, with the evidence by which they can be checked; format 1 or 2",
    "SCHEDULE": (
        "a run, one event a line: rounds start, changes are made, rounds are settled, packets enter, hop and are lost"
    ),
    "REPLIES": (
        "what switches answered when they were asked for their flow statistics: the name of a switch and the bytes of"
        " one message, a line each"
    ),
    "PREFIXES": (
        "where prefixes leave: a prefix and a host port, a line each, or several host ports, of which the nearest"
        " counts"
    ),
    "INPUT": (
        "what a controller was given, one line each: `start`, or `feed` with the name of a switch and bytes that it"
        " sent; of `apply` also `back`, `reopen` and `dead`"
    ),
}
# The name that a file has in a folder that stands in place of names.
IN_FOLDER = {
    "TOPO": "topology.json", "CONFIG": "old.json", "OLD": "old.json", "NEW": "new.json", "POLICY": "policy.json",
    "PLAN": "plan.json", "SCHEDULE": "schedule", "REPLIES": "replies", "INPUT": "update", "PREFIXES": "prefixes",
}


# Words that are no names of files, and what each may be.
CHOICES = {"KIND": ("ordered", "two-phase")}


class Command:
    """A command: its name, the words behind it, what it answers in a line, and in more words."""

    def __init__(self, name: str, usage: str, answer: str, text: str, is_proved: bool = True) -> None:
        self.name, self.usage, self.answer, self.text, self.is_proved = name, usage, answer, text, is_proved

    def words(self) -> tuple[list[str], int]:
        """The words behind the command, without brackets, and how many of them must be there."""
        found = self.usage.replace("]", "").split()
        least = next((at for at, word in enumerate(found) if word.startswith("[")), len(found))
        return [word.lstrip("[") for word in found], least


# The commands of the proved program.
PROVED = [
    Command(
        "config", "TOPO CONFIG [POLICY]",
        (
            "whether every packet has a good path under a configuration: no switch twice, and with a policy its"
            " waypoints met in order, and no drop where it must arrive"
        ),
        (
            "Says whether each class of packets has a good path in the configuration: no switch twice, the waypoints of"
            " the policy in their order, and no drop where the policy says that packets must arrive. Without POLICY"
            " nothing is demanded but that no packet comes to a switch twice. The answer is `holds` with the number of"
            " classes, or `breaks` with the first class that has no good path, and why."
        ),
    ),
    Command(
        "paths", "TOPO CONFIG [POLICY]",
        "the path of every class of packets under a configuration, and whether a demand covers it",
        (
            "Writes the path of each class of packets in the configuration: where it enters, each stop, and where it"
            " leaves, is dropped or comes to a switch again; and whether its path is good, breaks a demand, or is free"
            " since no demand covers it. The last line counts them."
        ),
    ),
    Command(
        "trace", "TOPO CONFIG ENTRY VLAN ADDRESS",
        "the way of one packet through a configuration, with the rule that it meets at each switch",
        (
            "Writes the way of one packet through the configuration, a line a stop with the rule that counts there, and"
            " where it ends. ENTRY is a host port as `s1:1`, VLAN `untagged` or 1 to 4094, ADDRESS the packet's"
            " destination. Where the network has no such entry it says so, and refuses."
        ),
    ),
    Command(
        "plan", "TOPO OLD NEW POLICY",
        (
            "a certified plan: rounds of one change each where a search for safe changes finds them, otherwise a"
            " two-phase plan, otherwise which tags or table entries are wanting"
        ),
        (
            "Writes a certified plan in format 2: one change a round where a search for safe changes finds them,"
            " otherwise a two-phase plan, which marks packets with tags. Where neither can be had it says which tags or"
            " table entries are wanting, and which rounds were tried."
        ),
    ),
    Command(
        "pack", "TOPO OLD NEW POLICY [KIND]",
        (
            "a certified plan of few rounds: each takes every change that can still stand in it; or a two-phase plan,"
            " where the other has more than twice as many rounds; KIND is `ordered` or `two-phase`, for a plan of that"
            " kind"
        ),
        (
            "Writes a certified plan in format 2 as `plan` does, but of few rounds: each round takes every change that"
            " can still be made beside those that it took before, in whatever order. Where that ends at no plan it is"
            " the one of `plan`'s search. A two-phase plan fills tables and changes every switch, so it is written only"
            " where the other has more than twice as many rounds, or there is no other. With KIND `ordered` it never"
            " is, and the answer may be `no ordered plan`; with `two-phase` no other is. The other refusals are those"
            " of `plan`. Where the error stream is a terminal, it is said what a plan of the other kind would cost,"
            " with the wait of `--wait SECONDS` before each round (2 s)."
        ),
    ),
    Command(
        "check", "TOPO OLD NEW POLICY PLAN",
        "whether a plan, from any source, is certified; otherwise the first reason why it isn't",
        (
            "Says whether the plan is certified. Then in every run of it, in any order of the changes of a round and"
            " any interleaving with the packets, no packet comes to a switch twice, each that leaves has met its"
            " waypoints, none that must arrive is dropped, and under a two-phase plan each packet takes the old or the"
            " new path. The answer is `accepted` with the kind of the plan and the numbers of rounds and classes, or"
            " `refused` with the first reason. A reason says what the plan's evidence lacks, and not that the plan is"
            " unsafe."
        ),
    ),
    Command(
        "certify", "TOPO OLD NEW POLICY PLAN",
        (
            "the rounds of a plan with evidence that certifies them, whatever evidence the plan has; otherwise why none"
            " does"
        ),
        (
            "Writes the plan in format 2 with evidence made anew for its rounds. The plan's own evidence is passed"
            " over: empty lists serve, so rounds can come from any planner, or from hand. Where no evidence certifies"
            " the rounds, the answer is `refused` with a reason of `check` that doesn't speak of evidence, or `no"
            " evidence` with the first round and the first class of packets that none keeps safe in it. It refuses"
            " two-phase plans."
        ),
    ),
    Command(
        "explain", "TOPO OLD NEW POLICY PLAN",
        (
            "of an ordered plan a run in which a packet breaks the policy, event by event, where there is one;"
            " otherwise that there is none"
        ),
        (
            "Writes the schedule of a run in which a packet comes to a switch twice, leaves without having met its"
            " waypoints, or is dropped though it must arrive: in the first round in which a packet can, and for the"
            " first class of packets there. It ends with the event by which the packet breaks the policy, and `replay`"
            " carries it out. Where every mixed walk is good, in whatever mixture of old and new rules a packet finds"
            " the switches of a round, it says so. The plan's evidence isn't looked at, and neither are the capacities"
            " of the switches. Where a configuration isn't good, or a change of a round can't be made or leaves two"
            " rules of equal priority for one packet, it answers `refused` with that reason, and it refuses two-phase"
            " plans."
        ),
    ),
    Command(
        "simulate", "TOPO OLD NEW POLICY PLAN START COUNT",
        (
            "a whole run of a certified plan in which COUNT packets enter, event by event, and where each packet went;"
            " START picks the events"
        ),
        (
            "Makes a run of a certified plan to its end, in which COUNT packets enter, from 0 to 1000, and START, a"
            " number of 64 bits, picks the events. It writes them as a schedule, and the traces as comments. Where the"
            " plan isn't certified it answers as `check` does."
        ),
    ),
    Command(
        "replay", "TOPO OLD PLAN SCHEDULE",
        "where each packet went in a recorded run of a plan, or the first line that can't have happened",
        (
            "Carries out the events of the schedule in turn, from the old tables on and over the rounds of the plan,"
            " and writes the trace of each packet: where it entered, each stop, and whether it left, was dropped, was"
            " lost or is under way. Where an event can't happen it names the line of the first one that can't."
        ),
    ),
    Command(
        "tables", "TOPO OLD PLAN SCHEDULE",
        (
            "the rules that each switch has after the events of a recorded run of a plan, and the changes of the"
            " running round that aren't made yet"
        ),
        (
            "Carries out the events of the schedule as `replay` does, and writes, in one line of JSON, the rules that"
            " each switch has then, and the changes of the running round that aren't made yet: a switch may have made"
            " any of these. The schedule may turn rounds besides, by the lines `back` and `undo N`. Where an event"
            " can't happen it names the line of the first one that can't."
        ),
    ),
    Command(
        "upgrade", "TOPO PLAN", "the plan in the newer of its two formats",
        "Writes the plan in format 2, whichever format it has.",
    ),
    Command(
        "import", "TOPO REPLIES",
        "the configuration that the switches have, made from the flow statistics that they answered",
        (
            "Writes the configuration that the switches have, from the flow statistics that they answered. It names the"
            " first line or entry that can't be read as a rule: such an entry is never read as another one."
        ),
    ),
    Command(
        "emit", "TOPO PLAN",
        "the OpenFlow 1.0 messages that carry the plan out, one a line, for any controller to send",
        (
            "Writes the OpenFlow 1.0 messages that carry the plan out, one a line: the round, the name of the switch,"
            " and the bytes in hexadecimal. In each round come the changes, and then a barrier request for each switch"
            " that has one."
        ),
    ),
    Command(
        "drive", "TOPO OLD NEW POLICY PLAN INPUT",
        (
            "what the core of a controller sends, given the starts of rounds and the bytes that came from the switches:"
            " the messages, the failed sessions, and the events so far as a schedule"
        ),
        (
            "Works out what a controller that carries the plan out sends to each switch, when it is given the calls and"
            " bytes of INPUT. It writes, as comments, the bytes sent to each switch and the sessions that failed, then"
            " the events as a schedule, and last how many rounds are settled. Where a round is started when it can't"
            " be, it names the line. Where the plan isn't certified it answers as `check` does."
        ),
    ),
    Command(
        "serve", "TOPO OLD NEW POLICY PLAN",
        (
            "the core of a controller, line by line: it takes starts of rounds, turns back and what came from the"
            " switches from the standard input, and answers each line at once with what is to be sent"
        ),
        (
            "Is the core of a controller that carries the plan out, and can turn back. It takes lines from the standard"
            " input, `start`, `back`, `reopen SWITCH`, `dead SWITCH` and `feed SWITCH HEX`, and answers each with a"
            " block of lines before it takes the next: the messages to send, the sessions that failed, the events, and"
            " how far the update is. Its memory doesn't grow with the lines. Where the plan isn't certified it answers"
            " as `check` does."
        ),
    ),
    Command(
        "sample", "N",
        (
            "one line on an update of its own making, a ring of N switches, 4 to 128, that it plans and checks: rounds,"
            " classes, numberings and picks"
        ),
        (
            "Makes the update of a ring of N switches, from 4 to 128, plans it, checks the plan, and writes one line:"
            " the kind of the plan, and the numbers of its rounds, classes, numberings and picks. It reads no file."
        ),
    ),
]
# The commands of the front end: tested, and not proved.
FRONT = [
    Command(
        "collect", "TOPO --switches FILE",
        "what the switches answer when they are asked for their tables: the REPLIES that `import` reads",
        (
            "Asks each switch for its flow table, and writes what `planner import` reads. What a configuration can't"
            " say is refused, in words."
        ),
        False,
    ),
    Command(
        "adopt", "NET --switches FILE",
        (
            "a network as one finds it: what of its tables can be taken over, and from a bridge's default entry to"
            " entries of one's own, after a question"
        ),
        (
            "Reads the tables of the switches, says what of them the planner takes, leaves out and can't say, and"
            " writes NET/old.json. Where bridges have the default entry of standalone mode, or are empty, the rules of"
            " --own, or of NET/new.json, are put in first, and then the default entries are taken away, each alone."
            " With --dry-run it ends before the question, with --yes it doesn't ask."
        ),
        False,
    ),
    Command(
        "apply", "TOPO OLD NEW POLICY PLAN INPUT --switches FILE",
        "carries a plan out on the switches, round by round, or takes it back; INPUT is the record of it",
        (
            "Carries out a plan on the switches. When it begins, before each round, after each lost connection and at"
            " the end it compares what they have with what `planner tables` says they must have, and stops where that"
            " differs; `--repair` puts it right. Every message of the plan is decided by `planner serve`, which stays"
            " beside it; INPUT records the lines that it was given. `--resume` goes on with it, and `--back` turns the"
            " update back, wherever it stands, also `--without` a switch that is gone. A mark on the switches tells"
            " other controllers of the update."
        ),
        False,
    ),
    Command(
        "update", "DIR --switches FILE",
        "all of it by one command: from the tables that the switches have to those of DIR/new.json, after a question",
        (
            "Reads the tables of the switches, makes a plan from them to DIR/new.json under DIR/policy.json, says what"
            " it is in words, asks whether it may be carried out, and does so. What each step made stays in a new"
            " folder in DIR. With --dry-run it ends before the question, with --yes it doesn't ask."
        ),
        False,
    ),
    Command(
        "show", "TOPO [OLD] [PLAN] FILE",
        (
            "a plan, a configuration or a schedule in words: of a plan round by round what is changed, from where to"
            " where, and the time that it takes"
        ),
        (
            "Shows FILE in words: of a plan round by round the switch, the entry, and from which neighbour to which; of"
            " a configuration the rules of each switch; of a schedule its events; of two configurations which entries"
            " differ. OLD says what was there before, and a schedule is shown whole behind OLD and PLAN. `--wait"
            " SECONDS` is the wait before each round, for the time that a plan takes; `--json` writes it for machines."
        ),
        False,
    ),
    Command(
        "diff", "TOPO OLD NEW [POLICY]",
        (
            "what the new rules change for whom: which classes of packets go another way, arrive no more, or arrive now"
            " and didn't, and the rules that do that"
        ),
        (
            "Compares the paths of every class of packets under both configurations, and counts those that go another"
            " way, arrive no more, arrive now and didn't, or leave at another host port. It tells them by host ports,"
            " VLANs and prefixes, put together where they say the same, with both paths and the rules that make the"
            " difference; with POLICY also what of it breaks a demand. `--json` writes it for machines."
        ),
        False,
    ),
    Command(
        "links", "TOPO CONFIG [--empty LINK]",
        (
            "how many classes of packets use each link and each switch, and for which prefixes; with `--empty` whether"
            " nothing uses a link or a switch"
        ),
        (
            "Says of each link, in both directions, and of each switch how many classes of packets use it, and for"
            " which prefixes. With `--empty`, which may stand several times, it says of these links or switches alone"
            " whether they are empty, and the exit status is 1 where one isn't. A link is named by one of its ends, as"
            " `s1:2`, or by its switches, as `s1-s2`. `--json` writes it for machines."
        ),
        False,
    ),
    Command(
        "policy", "TOPO OLD NEW [--through SWITCH]",
        (
            "a policy made of what both configurations do: what arrives under both must arrive, by the waypoints of"
            " `--through` that both paths meet"
        ),
        (
            "Writes a policy that both configurations keep: each class of packets that arrives under both must arrive,"
            " and has to meet those of the switches behind `--through`, which may stand several times, that both of its"
            " paths meet. The demands are put together to few; in a wide network one may have a list of host ports. The"
            " classes that stay free are listed on the error stream. With `--changed` it speaks of the classes alone"
            " whose paths differ; with `--most N` it has no more than N demands, those that speak of most classes, and"
            " lists the others."
        ),
        False,
    ),
    Command(
        "route", "TOPO PREFIXES [--drain LINK] [--weights FILE] [--from CONFIG]",
        (
            "a first draft of new rules: shortest paths from all hosts to where each prefix leaves, without what is"
            " drained, and like CONFIG where it can be"
        ),
        (
            "Writes a configuration in which each prefix is sent on shortest paths from all hosts to the host port"
            " where it leaves, without the links and switches behind `--drain`, which may stand several times. Of paths"
            " of one length those of CONFIG are taken, and its priorities; its rules for other packets stay. The length"
            " of a path is the number of its links, or the sum of their weights."
        ),
        False,
    ),
    Command(
        "page", "TOPO OLD NEW POLICY PLAN",
        (
            "one HTML file that shows what a plan does, round by round; `planner page TOPO CONFIG [POLICY]` shows where"
            " packets go under a configuration"
        ),
        (
            "Writes a page for the browser: of each round the changes, and the steps that packets may take; of a plan"
            " that is refused the walks that go wrong, of all classes of packets; of a run its events one by one. Of"
            " TOPO CONFIG [POLICY] it shows where packets go under that configuration."
        ),
        False,
    ),
    Command(
        "from-ofctl", "TOPO BRIDGE=FILE..", "the configuration that the text of `ovs-ofctl dump-flows` says",
        (
            "Makes a configuration of the text of `ovs-ofctl dump-flows` of each bridge. Each entry that a"
            " configuration can't say is named with its line, and nothing is written then. With --drop-unsayable"
            " entries for other packets than IPv4, and entries of priority 0 that do what a miss does, are left out."
        ),
        False,
    ),
    Command(
        "from-mininet", "FILE", "the topology that Mininet's `net`, `links` and `ports` print",
        (
            "Makes a topology of what Mininet's commands `net`, `links` and `ports` print. The interface `s1-eth2` is"
            " port 2 of s1, where `ports` doesn't say otherwise."
        ),
        False,
    ),
    Command(
        "from-graphml", "FILE --hosts NAME,.. --vlans VLAN,.. --tags FIRST-LAST --capacity N",
        "a topology made of a graph of the Internet Topology Zoo, and of what a graph lacks",
        (
            "Makes a topology of a graph in GraphML, as the Internet Topology Zoo has them. Ports are numbered in the"
            " order of the edges; which switches have a host port, which VLANs and tags there are, and how many rules a"
            " switch can hold, is asked for. `--distances FILE` and `--speeds FILE` write what the graph says of its"
            " links as weights for `route`."
        ),
        False,
    ),
    Command(
        "to-ofctl", "PLAN [FOLDER]", "the rounds of a plan as commands of `ovs-ofctl`, a script for each round",
        (
            "Writes a script of strict commands of `ovs-ofctl` for each round of a plan, for networks without a"
            " controller, into FOLDER, and prints their names. Between two rounds it is on the operator to wait until"
            " the packets that entered before have left."
        ),
        False,
    ),
    Command(
        "install", "[PREFIX]",
        "the program, the front end, manual pages, completions and examples, in their places under a prefix",
        (
            "Puts the program, the front end, a manual page for each command, completions for bash, zsh and fish, and"
            " examples in their places under PREFIX, /usr/local by default. It is done from a checkout."
        ),
        False,
    ),
]
COMMANDS = PROVED + FRONT
# What people want who run a command, for the table in the README: what it is about, and the commands in the order of
# that table.
WISHES = [
    ("whether packets have good paths under my rules", ["config"]),
    ("where packets go, by which rules, what uses a link, what changes for whom", ["paths", "trace", "links", "diff"]),
    ("a plan from old rules to new ones", ["pack", "plan"]), ("whether a plan is safe, whoever made it", ["check"]),
    ("evidence for rounds of my own", ["certify"]), ("how a packet can break my policy under a plan", ["explain"]),
    ("a plan, rules or a run in words or the browser", ["show", "page"]),
    ("to try a plan: a run, where its packets went, the tables then", ["simulate", "replay", "tables"]),
    ("to change the switches", ["update", "adopt", "collect", "apply"]),
    ("the bytes, and what a controller sends", ["import", "emit", "drive", "serve"]),
    (
        "my files from what I have, drafts of them, and back",
        ["from-ofctl", "from-mininet", "from-graphml", "policy", "route", "to-ofctl"],
    ),
    ("the rest", ["upgrade", "sample", "install"]),
]
BY_NAME = {command.name: command for command in COMMANDS}


def wish_lines() -> list[str]:
    """What there is for whom, in short."""
    return [f"{', '.join(names)}: {wish}" for wish, names in WISHES]


# The options of the commands that speak with switches, and what each says.
CONNECTIONS = [
    ("--switches FILE", "which switches there are: a line for each, its name, its datapath id, and where it listens"),
    ("--listen HOST:PORT", "where the switches connect to that don't listen"),
]
CARRYING_OUT = [
    ("--wait SECONDS", "how long after a round was settled the next one begins (2 s)"),
    ("--ask", "a round begins when the operator presses Enter"),
    ("--patience SECONDS", "how long a switch may be away, or take for an answer (60 s)"),
]
OWN_OPTIONS = {
    "pack": [("--wait SECONDS", "how long it is waited before each round, for what is said of the time (2 s)")],
    "adopt": [
        *CONNECTIONS,
        ("--own CONFIG", "rules that are put in where they aren't there (NET/new.json where nothing is taken)"),
        ("--patience SECONDS", "how long a switch may take (15 s)"), ("--yes", "doesn't ask before the first change"),
        ("--dry-run", "ends before the first change"),
    ],
    "collect": [*CONNECTIONS, ("--patience SECONDS", "how long a switch may take (15 s)")],
    "apply": [
        *CONNECTIONS, *CARRYING_OUT, ("--resume", "goes on with the record of an earlier run"),
        (
            "--back",
            (
                "goes on with it backwards: turns the round that runs, and undoes those that are settled, one by one,"
                " up to OLD"
            ),
        ),
        (
            "--recover",
            "makes a lost record anew from what the switches have, and goes on with it, forward or by --back",
        ),
        (
            "--without SWITCH",
            (
                "goes on, or back, or begins, without a switch that is gone: no packet passes it, and it is waited for"
                " no more; may be given more than once"
            ),
        ),
        (
            "--repair SWITCH",
            (
                "gives a switch that is there again the table that it must have by now, and it takes part again;"
                " without SWITCH puts right what any switch doesn't have as it must have it, in place of stopping"
            ),
        ),
        ("--take-over", "takes away the marks of other updates"),
        ("--no-mark", "puts no mark on the switches, and doesn't mind those of others"),
    ],
    "links": [("--empty LINK", "asks whether nothing uses this link or switch")],
    "policy": [
        ("--through SWITCH", "a switch that a class has to meet where both of its paths meet it"),
        ("--changed", "demands for those classes alone whose paths differ"),
        ("--most N", "of more demands than N those that speak of most classes"),
    ],
    "route": [
        ("--drain LINK", "a link or a switch that is to be empty"), ("--weights FILE", "the weight of each link"),
        ("--from CONFIG", "the rules now"),
    ],
    "show": [("--wait SECONDS", "the wait before each round, for the time that a plan takes (2 s)")],
    "page": [
        ("--schedule FILE", "a run of the plan, to be played: of `simulate` or `explain`, or the record of an update"),
        ("--planner PATH", "the program"),
        ("--layout graphviz|own", "own: Graphviz isn't used, even where it is there"),
    ],
    "from-ofctl": [
        (
            "--drop-unsayable",
            "leaves out entries for other packets than IPv4, and entries of priority 0 that do what a miss does",
        )
    ],
    "from-mininet": [
        ("--hosts NAME,..", "nodes that are hosts, where the text doesn't show it"),
        ("--vlans VLAN,..", "the VLANs with which packets of hosts come (untagged)"),
        ("--tags FIRST-LAST", "VLAN ids that the planner may use as tags (none)"),
        ("--capacity N", "how many rules a switch can hold (8192)"),
    ],
    "from-graphml": [
        ("--hosts NAME,..", "the switches that have a host port, by name or id of the node; `all`"),
        ("--external switches|hosts", "hosts: nodes that the graph says aren't internal are hosts, and no switches"),
        ("--vlans VLAN,..", "the VLANs with which packets of hosts come"),
        ("--tags FIRST-LAST", "VLAN ids that the planner may use as tags; `none`"),
        ("--capacity N", "how many rules each switch can hold"),
        ("--names labels|ids", "what the switches are named by (labels)"),
        ("--distances FILE", "writes the lengths of the links as weights for `route`"),
        ("--speeds FILE", "writes their speeds so"),
    ],
    "to-ofctl": [
        (
            "--switches FILE",
            "where each switch is reached, as for `apply`; otherwise it is a bridge of its name on this machine",
        )
    ],
    "update": [
        *CONNECTIONS, *CARRYING_OUT, ("--yes", "doesn't ask before the first change"),
        ("--dry-run", "ends before the first change"), ("--ordered", "makes an ordered plan, or none"),
        ("--two-phase", "makes a two-phase plan, or none"),
        ("--without SWITCH", "begins without a switch that is gone, and that no packet passes"),
    ],
}
# Commands of the program that are newer than some builds of it.
NEW = ("paths", "trace", "tables", "certify", "pack", "serve")

DESCRIPTION = (
    "plans and checks updates of OpenFlow 1.0 flow tables while packets flow. From a network, the rules now, the rules"
    " wanted and what packets must do, it plans the rounds in which the switches are to be changed. It checks such"
    " plans, whoever made them. Under a plan that it accepts no packet comes to a switch twice, none leaves the network"
    " without having met its waypoints, and none that must arrive is dropped by a switch, in whatever order the changes"
    " of a round and the hops of packets fall."
)
FRONT_END = (
    "Each command reads the files that it names, and writes its answer to the standard output. The standard output and"
    " the exit status of the commands of the proved program are exactly the program's. What the front end says beside"
    " it goes to the error stream. A checkout of the repository brings the program along, in dist/. Where that was"
    " built from other sources than those that are there, the front end proves and builds the program first, where it"
    " is missing or older than a source, and says why, and how long that takes."
)
OPTIONS = [
    ("--help", "Prints the commands in short; behind a command, more of it. So do -h, `help` and `help COMMAND`."),
    (
        "--version",
        (
            "Prints the version, and which program is run: that of dist/, one that was built here, or the installed"
            " one. So does -V."
        ),
    ),
    (
        "-o FILE",
        (
            "Writes the answer into FILE, which is there only where the exit status is 0. Another answer goes to the"
            " standard output."
        ),
    ),
    ("--strict", "Makes warnings exit status 3, with nothing written."),
    ("--quiet", "Says nothing on the error stream but refusals."),
    (
        "--json",
        (
            "Writes the answer, and what is said beside it, as one object of JSON; of update and apply a line for each"
            " event."
        ),
    ),
]
SHORT_HANDS = (
    "A folder in place of TOPO stands for the files of it that are left out: topology.json, old.json (also for CONFIG),"
    " new.json, policy.json, plan.json, schedule, replies, update and prefixes. `planner plan examples/square` takes"
    " the first four of them. The name `-` is the standard input. The error stream has colour only on a terminal, and"
    " none where the variable NO_COLOR is set. The variable PLANNER names another program than the one of dist/, the"
    " built or the installed one."
)

STATUSES = [
    (0, "done; the answer is yes"),
    (1, "refused; the answer is no"),
    (2, "an unknown command, or wrong words"),
    (3, "a bad file, or more classes of packets than the planner takes"),
    (4, "too few tags for a two-phase plan"),
    (5, "too small a table for a two-phase plan"),
    (6, "a file couldn't be read"),
    (7, "the output couldn't all be written"),
    (8, "the schedule or the input is no run"),
    (9, "memory was wanting"),
    (125, "the program isn't there or can't be built"),
]


def help_text() -> str:
    """The text of `planner --help`."""
    import textwrap

    lines = ["planner COMMAND WORD.. : plans and checks updates of OpenFlow 1.0 networks, and carries them out."]
    for title, commands in (
        ("Commands of the proved program:", PROVED),
        ("Commands of the front end, which are tested and not proved:", FRONT),
    ):
        lines += ["", title]
        for command in commands:
            lines += [f"  {command.name} {command.usage}"]
            lines += textwrap.wrap(command.answer, 112, initial_indent="      ", subsequent_indent="      ")
    lines += ["", "Options:"]
    lines += [
        line
        for flag, text in OPTIONS
        for line in textwrap.wrap(
            f"{flag:<12}{text.replace('`', '')}", 112, initial_indent="  ", subsequent_indent=" " * 14
        )
    ]
    lines += ["", *textwrap.wrap(SHORT_HANDS.replace("`", ""), 112, break_on_hyphens=False), "", "Exit status:"]
    lines += [f"  {number:<4} {meaning}" for number, meaning in STATUSES]
    return "\n".join(lines) + "\n"


def command_help(command: Command) -> str:
    """The text of `planner COMMAND --help`, for a command of the program."""
    import textwrap

    own = "".join(f" [{flag}]" for flag, _ in OWN_OPTIONS.get(command.name, []))
    lines = [f"planner {command.name} {command.usage}{own}", "", *textwrap.wrap(command.text, 112)]
    files = [word for word in command.words()[0] if word in FILES]
    for word in files:
        lines += [""] if word == files[0] else []
        lines += textwrap.wrap(f"{word:<10}{FILES[word]}", 112, initial_indent="  ", subsequent_indent=" " * 12)
    lines += ["", "planner --help has the options, and what a folder in place of TOPO stands for."]
    return "\n".join(lines) + "\n"
