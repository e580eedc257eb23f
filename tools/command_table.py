"""The table of the program's commands, from which tools/commands.py writes what planner_cli says of each.

A command has a row in ROWS, in the order in which the program knows them. Its words are one of WORDS, which several
commands may share; what its files mean, and the dialogue in which it reads them, one of MEANINGS. A definition is named
by its crate and its file: `one_command.Names` is `Rattle.one_command.specs.Names`.
"""
from typing import NamedTuple


class Words(NamedTuple):
    """How the names of a command's files stand among its words."""
    crate: str         # the crate whose function reads them
    function: str      # that function
    rust: str          # the type of the names, in the code
    module: str        # the definitions, and the name under which they are known
    alias: str
    files: str         # the type of the names, in the definitions; those below stand in the module too
    files_in: str      # what the words say
    seen: str          # the names without where they lie in memory


class Meaning(NamedTuple):
    """What a command's files mean, and its dialogue with them."""
    meaning: str       # the type, and where it stands
    meaning_in: str
    dialogue: str      # the dialogue, and where it stands
    dialogue_in: str
    letter: str        # what a definition calls a value of the type


class Given(NamedTuple):
    """A word that is no file's, as its command understands it."""
    name: str
    type: str          # and where it stands, if it is none of the library's
    type_in: str = ""


class Row(NamedTuple):
    name: str
    words: str         # one of WORDS
    means: str         # one of MEANINGS; none where no file is read
    answer: str        # the relation between what the files mean and the answer, and where it stands
    answer_in: str
    promise_in: str = ""   # where the promise stands, if not in the crate of the command
    promise: str = ""      # the record, where it extends that of the command's crate
    kind: str = "answers"  # "serves" where lines are answered one by one, "reads_none" where no file is read
    before: tuple[Given, ...] = ()  # what the answer depends on besides, of the names of the files: a `Given` for each
    files_at: str = ""     # where among the names those of the dialogue stand, if there are others
    comment: str = ""      # what stands above its promise


WORDS = {
    "config": Words("config_command", "config_names", "ConfigNames<'a>", "config_command.Names", "config",
                    "ConfigNames", "names_in", "names_seen"),
    "check": Words("check_base", "check_names", "CheckNames<'a>", "check_base.Names", "check", "CheckNames",
                   "names_in", "names_seen"),
    "update": Words("command_base", "update_names", "UpdateNames<'a>", "command_base.Names", "base", "UpdateNames",
                    "update_names_in", "names_seen"),
    "pack": Words("pack_command", "pack_names", "PackNames<'a>", "pack_command.Names", "pack", "PackNames",
                  "names_in", "names_seen"),
    "plan": Words("command_base", "plan_names", "PlanNames<'a>", "command_base.Names", "base", "PlanNames",
                  "plan_names_in", "plan_names_seen"),
    "replay": Words("replay_command", "replay_names", "ReplayNames<'a>", "replay_command.Names", "replay",
                    "ReplayNames", "names_in", "names_seen"),
    "trace": Words("trace_command", "trace_names", "TraceNames<'a>", "trace_command.Names", "trace", "TraceNames",
                   "names_in", "names_seen"),
    "simulate": Words("simulate_command", "simulate_names", "SimulateNames<'a>", "simulate_command.Names", "simulate",
                      "SimulateNames", "names_in", "names_seen"),
    "import": Words("import_command", "import_names", "ImportNames<'a>", "import_command.Names", "imports",
                    "ImportNames", "names_in", "names_seen"),
    "drive": Words("drive_command", "drive_names", "DriveNames<'a>", "drive_command.Names", "drive", "DriveNames",
                   "names_in", "names_seen"),
    "size": Words("sample_command", "ring_size", "RingSize", "sample_command.Sizes", "sample", "ℕ", "size_in",
                  "size.switches"),
}

MEANINGS = {
    "config": Meaning("ConfigMeaning", "config_command.Configs", "config_dialogue", "config_command.Configs", "m"),
    "check": Meaning("CheckMeaning", "check_base.Checks", "check_dialogue", "check_base.Checks", "m"),
    "update": Meaning("Update", "certificates.Updates", "reading_update", "command_base.Readings", "u"),
    "plan": Meaning("PlanMeaning", "command_base.Updates", "reading_plan_files", "command_base.Readings", "m"),
    "replay": Meaning("ReplayMeaning", "replay_command.Replayed", "replay_dialogue", "replay_command.Replayed", "m"),
    "tables": Meaning("TablesMeaning", "tables_command.Tabled", "tables_dialogue", "tables_command.Tabled", "m"),
    "trace": Meaning("TraceMeaning", "trace_command.Traced", "trace_dialogue", "trace_command.Traced", "m"),
    "import": Meaning("ImportMeaning", "import_command.Imported", "import_dialogue", "import_command.Imported", "m"),
    "drive": Meaning("DriveMeaning", "drive_command.Driven", "drive_dialogue", "drive_command.Driven", "m"),
    "": Meaning("ℕ", "", "", "", "n"),
}

ROWS = (
    Row("config", "config", "config", "IsConfigAnswer", "config_command.Configs"),
    Row("paths", "config", "config", "IsPathsAnswer", "paths_command.Listed"),
    Row("check", "check", "check", "IsCheckAnswer", "check_command.Checks",
        comment="The headline is the field `keeps` of this promise."),
    Row("certify", "check", "check", "IsCertifyAnswer", "certify_command.Answers"),
    Row("plan", "update", "update", "IsPlanned", "plan_command.Planned"),
    Row("pack", "pack", "update", "IsPacked", "pack_command.Packed",
        before=(Given("kind", "PackKind", "pack_command.declared.names.PackKind"),), files_at="files"),
    Row("upgrade", "plan", "plan", "IsUpgradeAnswer", "upgrade_command.Texts"),
    Row("emit", "plan", "plan", "IsEmitAnswer", "emit_command.Answers"),
    Row("replay", "replay", "replay", "IsReplayAnswer", "replay_command.Replayed"),
    Row("tables", "replay", "tables", "IsTablesAnswer", "tables_command.Listed"),
    Row("trace", "trace", "trace", "IsTraceAnswer", "trace_command.Traced"),
    Row("simulate", "simulate", "check", "IsSimulateAnswer", "simulate_command.Simulated",
        before=(Given("start", "ℕ"), Given("count", "ℕ")), files_at="check"),
    Row("explain", "check", "check", "IsExplainAnswer", "explain_command.Explained"),
    Row("import", "import", "import", "IsImportAnswer", "import_command.Imported"),
    Row("drive", "drive", "drive", "IsDriveAnswer", "drive_command.Driven", promise_in="law_drive_promise",
        promise="DriveWirePromise"),
    Row("serve", "check", "check", "SaysRefusal", "serve_command.Serving", promise_in="law_serve_promise",
        kind="serves"),
    Row("sample", "size", "", "SaysSummary", "sample_command.Summaries", kind="reads_none"),
)
