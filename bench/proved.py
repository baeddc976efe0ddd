#!/usr/bin/env python3
"""Makes docs/proof/PROVED.md, what is proved crate by crate, out of the comments in the sources.

    bench/proved.py [--check | --write]

For each crate, in the layers and the order of crates.txt, the page has the crate's line from there; then its laws and those of its
calls and types that carry a claim, each with its file and the first sentence of its `///` comment; then the definitions by which
a claim is read, each with its file and the first sentence of the comment above it.

A law is a public function without parameters and without a result, whose contract is the claim. Of a crate in LAWS those stand
there that it names; of each other crate all do. CALLS and DEFINITIONS name the rest. A name that is not there is a fault, and so
is a crate without a line or a contract without a comment.

Without a word it prints the page; with --write it writes it; with --check it says whether the page is the one that it would write."""
import os, re, sys

TOP = os.path.dirname(os.path.dirname(os.path.realpath(__file__)))
PAGE = "docs/proof/PROVED.md"
# How long what is said of a name should be, and how long it may be; more of it stands in its file.
LEAST, WIDEST = 70, 460
# Crates that are no part of a claim: tests alone.
LEFT_OUT = {"pw_language_tests", "pw_deck_tests", "pw_store_tests", "pw_pair_tests", "pw_system_tests"}

# The laws of crates that have more of them than carry a claim.
LAWS = {
    "pw_base": "first_fault_laws fault_code_laws",
    "pw_words": "refusal_text_laws",
    "pw_text": "",
    "pw_data": "tree_laws storage_laws",
    "pw_code": "",
    "pw_event": "line_laws fail_line_laws",
    "pw_onecopy": "number_examples operation_examples block_effects",
    "pw_tree_meaning": "deck_laws unit_laws restart_laws until_laws",
    "pw_code_meaning": "verb_laws context_laws count_laws sound_laws",
    "pw_worked_logs": "lock_logs unit_logs takeover_logs loss_logs server_logs refused_entries",
    "pw_world_state": "runs::next_laws may_laws step_laws next::next_laws takeover_laws",
    "pw_world_model": "stamp_laws due_laws touch_laws push_laws legal_laws idle_laws unrun_laws",
    "pw_laws": "attempt_laws commit_laws legality_laws legal::laws::run_laws lock_laws record_laws operation_laws begin_laws pair_laws "
    "lost_laws runs_tell_their_losses ending_laws runs_are_serializable runs_keep_their_promises equal_numbers_equal_images "
    "unfinished_runs_have_a_step guarded_pairs_are_kept older_restarts_are_few enough_restarts_never_suspend",
    "pw_world": "found_laws",
    "pw_report_text": "printed_is_the_report logs_are_read_back",
    "pw_read_back": "naming_laws runs_are_read_back decks_are_read_back",
    "pw_status": "tally_laws",
    "pw_bank_laws": "bank_accounts_keep_their_form bank_statements_tell_balances bank_servers_step bank_sums_are_as_posted "
    "bank_units_balance bank_sum_stays",
    "pw_tmf": "told_laws committed_laws leaving_laws",
    "pw_tcp": "step_laws run_laws note_laws",
}

# Calls and types, crate by crate; where one name stands in two modules the module stands in front of it.
CALLS = {
    "pw_base": "Source Sink read_all write_all_of",
    "pw_number": "add subtract multiply divide compare",
    "pw_picture": "picture store move_to",
    "pw_words": "Table::find Names::put",
    "pw_text": "tokens::tokens",
    "pw_data": "layout",
    "pw_forms": "procedure",
    "pw_divisions": "divide",
    "pw_code": "mode_of may_name",
    "pw_screen": "screens",
    "pw_operands": "variable_of",
    "pw_scobol": "requester",
    "pw_server": "server",
    "pw_names": "names",
    "pw_compile": "compile compile_server",
    "pw_files": "RecordFile SortedFile",
    "pw_blocks": "BlockFile",
    "pw_locks": "LockBook::conflict LockBook::blocks LockBook::release",
    "pw_class": "ClassBook::take ClassBook::cancel",
    "pw_volume": "Disk MemDisk",
    "pw_file_disk": "FileDisk RawFile open",
    "pw_summed_disk": "SummedDisk SummedDisk::open",
    "pw_event": "print_event reading::read_event fail_line::read_fail due",
    "pw_terminal": "show check_entry",
    "pw_net": "Member",
    "pw_sections": "records entries",
    "pw_pathcom": "pathcom objects",
    "pw_log_lines": "failures events",
    "pw_deck_tables": "tables tell",
    "pw_deck": "read_deck",
    "pw_gen": "generate",
    "pw_compiled_deck": "read",
    "pw_machine": "run::start run::verb run::answer",
    "pw_image": "encode decode patch",
    "pw_tmf": "Disc Tmf Faulty",
    "pw_pair": "Pair Backup::takeover",
    "pw_tcp": "next_step refresh",
    "pw_trail": "TrailLog::append TrailLog::append_group Trail Trail::open",
    "pw_group_commit": "GroupLog GroupTrail FollowedLog Follower LineFollower",
    "pw_disc": "read_disc_script DiscPair LastingPair make_on_both",
    "pw_actor_queue": "Roster Roster::next Roster::call",
    "pw_world_store": "Keep",
    "pw_entry_tests": "may step own_step find_cause",
    "pw_entry_effects": "act",
    "pw_world": "World claim apply work enter replay",
    "pw_link": "lane PrimaryEnd::send BackupEnd::take InOrder",
    "pw_input_output": "read_input written",
    "pw_serial_order": "SerialOrder::push SerialOrder::end",
    "pw_report_text": "listing::report listing::files_part",
    "pw_workers": "run_workers run_over Shared::next Shared::apply Shared::calls_behind LinkLane::build",
    "pw_report": "report_of files_of",
    "pw_status": "Watch Watch::push status",
    "pw_command_line": "read_words",
    "pw_expand": "expand answer",
    "pw_deck_runs": "run::run verify trial run_with disc::run::run trail",
    "pw_store_runs": "run_stored",
    "pathway": "pathway process",
}

# The definitions by which the claims are read, crate by crate.
DEFINITIONS = {
    "pw_base": "ReadsAll StopsOnce",
    "pw_files": "IsFile",
    "pw_locks": "IsOldest HaveCommonKey",
    "pw_volume": "ImagesComeBy Torn Shortened Only",
    "pw_file_disk": "MayBeLeft",
    "pw_summed_disk": "IsReadImage FindsChanges RefusesChanges",
    "pw_event": "IsLineOf",
    "pw_onecopy": "IsBehaviour one_copy",
    "pw_paired": "Legal Steps IsRun blocks IsSerializable EndsOnce",
    "pw_net": "HasPrepared",
    "pw_deck": "deck_of",
    "pw_gen": "IsFaultless",
    "pw_tree_meaning": "behaviour IsSoundDeck",
    "pw_laws": "KeepsPromises Losses Suspensions HasCause MadeGone IsGuarded CommitsAlone",
    "pw_tmf": "Told Tells",
    "pw_trail": "HasPrefixOf RecoversPrefixOf LeadsTo",
    "pw_group_commit": "IsGroupLog HasOrWithGroup IsFollowed WritesLines",
    "pw_records": "AreAlike",
    "pw_disc": "AfterCall IsLost",
    "pw_world_state": "Stands",
    "pw_world_model": "IsWorld Works",
    "pw_workers": "EndsAs LeavesWorld",
    "pw_report_text": "report_text",
    "pw_invariants": "RunsAlone KeepsInvariant RunInTurn KeepsHistory ServersStep UnitsBalance ServersKeep",
    "pw_program_laws": "ServerMeets ProgramMeets",
    "pw_bank_laws": "sum_of_balances untold IsAccount",
    "pw_order_laws": "IsNumbered TakenIsOrdered",
    "pw_seat_laws": "KeepsSeats KeepsHolders",
    "pw_generated_runs": "CountsEntries LeavesCounts",
    "pw_read_back": "IsReadFrom",
    "pw_status": "IsStatusOf",
    "pw_command_line": "ReadsCommandLine",
    "pw_expand": "OutputsAgree IsAnswered",
    "pw_deck_runs": "meaning Prints Reports Verifies Tries TellsCounts IsPairRun RunsWith",
    "pw_store_runs": "IsStore StoreRuns PrintsOver HasCommitted HasSettled RefusesStore",
    "pathway": "Ends Means FaultCountsGoOn AsksSource OutputBy",
}


class Named:
    """What a source file says of a name: its module, the beginning of what is said of it, and whether it is a law."""

    def __init__(self, file, folder, name, comment, is_law=False):
        self.file, self.name, self.comment, self.is_law = file, name, comment, is_law
        self.whole = "::".join(file.split(f"/{folder}/")[1].rpartition(".")[0].split("/") + [name])


def found(names, word):
    """The one of these that a word names: by all of its path, or by its name, or by the end of its path."""
    for matches in (lambda it: it.whole == word, lambda it: it.name == word, lambda it: it.whole.endswith(f"::{word}")):
        if matching := [it for it in names if matches(it)]:
            return matching
    return []


def said(lines, number, mark):
    """The beginning of the comment above a line: its first sentence, and the next ones of its paragraph where that is short."""
    words = []
    while number and re.match(rf" *({mark}|#\[)", lines[number - 1]):
        number -= 1
        if lines[number].strip().startswith(mark):
            words.insert(0, lines[number].strip()[len(mark) :].strip())
    front = words[: words.index("")] if "" in words else words
    text = ""
    for sentence in re.split(r"(?<=[.]) (?=[A-Z`])", " ".join(front)):
        if len(text) < LEAST:
            text = f"{text} {sentence}".strip()
    # Sources say behind where a page says after.
    text = re.sub(r"\bbehind\b", "after", re.sub(r"\bBehind\b", "After", text))
    if len(text) > WIDEST:
        text = text[: max(text.rfind(it, 0, WIDEST) for it in ("; ", ": ", ", "))] + " .."
    return text


def names_of(file):
    """The public calls, types and laws of a source file."""
    with open(file) as source:
        lines = source.read().split("\n")
    owner, is_trait = None, False
    for number, line in enumerate(lines):
        opened = re.match(r"(?:impl(?:<.*?>)? (?:[\w:<>, ]+ for )?(\w+)|pub trait (\w+))", line)
        if opened:
            owner, is_trait = opened[1] or opened[2], bool(opened[2])
        if line.startswith("}"):
            owner, is_trait = None, False
        kind = re.match(r"pub (?:struct|enum|trait) (\w+)", line)
        call = re.match(r" *(pub )?fn (\w+)(?:<.*?>)?(\(\))?(.*)", line)
        if kind:
            yield Named(file, "src", kind[1], said(lines, number, "///"))
        elif call and (call[1] or is_trait):
            name = f"{owner}::{call[2]}" if owner else call[2]
            yield Named(file, "src", name, said(lines, number, "///"), bool(call[3] and "->" not in call[4] and not owner))


def definitions_of(file):
    """The definitions of a file of specs that may be cited."""
    with open(file) as source:
        lines = source.read().split("\n")
    for number, line in enumerate(lines):
        if named := re.match(r" *(?:unfoldable |abbrev )*pub (?:record |data )?(\w+)", line):
            yield Named(file, "specs", named[1], said(lines, number, "--"))


def files_of(crate, folder, end):
    walked = os.walk(f"crates/{crate}/{folder}")
    return sorted(os.path.join(path, it) for path, _, names in walked for it in names if it.endswith(end))


class Page:
    def __init__(self):
        self.text, self.faults, self.crates = "", [], set()

    def add(self, *lines):
        self.text += "".join(f"{it}\n" for it in lines)

    def named(self, crate, wanted, names):
        """What the words name of a crate, each once."""
        all_found = []
        for word in wanted.split():
            matching = found(names, word)
            if len(matching) != 1:
                self.faults.append(f"bench/proved.py: {len(matching)} things of {crate} are named {word}")
            all_found += matching[:1]
        return all_found

    def add_crate(self, crate, what):
        self.crates.add(crate)
        calls = [it for file in files_of(crate, "src", ".rt") for it in names_of(file)]
        laws = [it for it in calls if it.is_law and "examples" not in it.file]
        if crate in LAWS:
            laws = self.named(crate, LAWS[crate], [it for it in calls if it.is_law])
        rest = self.named(crate, CALLS.get(crate, ""), [it for it in calls if not it.is_law])
        meant = [it for file in files_of(crate, "specs", ".antt") for it in definitions_of(file)] if crate in DEFINITIONS else []
        shown = rest + laws
        read_by = self.named(crate, DEFINITIONS.get(crate, ""), meant)
        for it in shown + read_by:
            if not it.comment:
                self.faults.append(f"{it.file}: nothing is said of {it.name}")
        self.add(f"- **`{crate}`**: {what}")
        self.add(*(f"  - [`{it.name}`](../../{it.file}): {it.comment}" for it in shown))
        self.add(*(f"  - definition [`{it.name}`](../../{it.file}): {it.comment}" for it in read_by))


HEAD = '''# What is proved

For whoever wants to know which contract carries a claim: what each crate proves, in the words of its sources. `bench/proved.py`
makes this page, and no line of it is written by hand.

Below each crate stand its calls and laws, then the definitions by which they are read, each with the beginning of its comment.
The contract beside a comment is what is proved: read it where a word counts. In a comment "exactly" yields to want of memory: a
call that gives up for want of memory meets its contract. Each function is proved safe on every input that meets its `requires`,
and to return, but for those that may wait for a thread (may_wait in `crates.txt`). [PROMISES.md](PROMISES.md) has what this comes
to for a user, what is tested alone, and what is trusted.
'''


def written():
    """The page, and what is wrong with the lists above."""
    page = Page()
    page.text = HEAD
    above = []
    with open("crates.txt") as file:
        rows = file.read().split("\n")
    for row in rows:
        if row.startswith("## "):
            layer, _, what = row[3:].partition(": ")
            if layer != "tests":
                page.add("", f"## {layer.capitalize()}", "", f"{what[:1].upper()}{what[1:]}.", "")
        elif row.startswith("# "):
            above.append(row[2:])
        elif re.match(r"\w", row):
            crate = re.match(r"\w+", row)[0]
            own = [it for it in above if not it.startswith(f"{crate}::")]
            if len(own) != 1:
                page.faults.append(f"crates.txt: {crate} has {len(own)} lines")
            if crate not in LEFT_OUT and own:
                page.add_crate(crate, own[0])
            above = []
        elif not row:
            above = []
    for crate in sorted((LAWS.keys() | CALLS.keys() | DEFINITIONS.keys()) - page.crates):
        page.faults.append(f"bench/proved.py: no crate {crate}")
    return page


def main(words):
    if words not in ([], ["--check"], ["--write"]):
        return "usage: bench/proved.py [--check | --write]"
    os.chdir(TOP)
    page = written()
    if words == ["--check"]:
        with open(PAGE) as file:
            if file.read() != page.text:
                page.faults.append(f"{PAGE} is not what bench/proved.py writes: run bench/proved.py --write")
    elif words and not page.faults:
        with open(PAGE, "w") as file:
            file.write(page.text)
    elif not words:
        sys.stdout.write(page.text)
    for fault in page.faults:
        print(fault, file=sys.stderr)
    return bool(page.faults)


if __name__ == "__main__":
    sys.exit(main(sys.argv[1:]))
