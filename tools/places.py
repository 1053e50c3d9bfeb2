#!/usr/bin/env python3
"""Prints the places that docs/DESIGN-PASS.md counts: for each point `crate/src/file:line name`, and the counts.

usage: python3 tools/places.py [COMMIT]      at the top; without COMMIT it reads the files as they lie there

A place is a type, a function or a constant of crates/*/src/*.rt, so a function may stand under several points.
What no pattern finds stands in BY_READING as `crate/file: names`; a name that is gone is no place any more. What has
today's form and kept its name, or is found by a pattern though it never had the form, stands in CHANGED, which is left
out where the files are read as they lie there.
"""

import collections
import glob
import io
import re
import subprocess
import sys
import tarfile

Item = collections.namedtuple("Item", "place kind name head contract body")

# Enum variants that say that there is no value, or none that is good.
NO_VALUE = {"Nothing", "Cut", "Failed", "Refused", "Without", "Bad", "Other", "Malformed"}
# Functions that answer a number of 01's refusals; the last alternative is the C interface.
REFUSING = re.compile(
    r"refusal$|^number$|^fault_of$|^write(_numbered)?$|^hand_over$|^(dock|laptop|catalogue|exports)_(?!report)"
)
TAKES = re.compile(r"refus|fault|ending|offset|is_good|written|arrived|answer")
# Constants that are numbers of refusals, and those that are sizes or single values and so no kind.
REFUSALS = set(
    "OUT_OF_ORDER BYTES_AFTER_END NO_IDENTITY SHORT SHORT_RUN UNKNOWN_KIND CUT_RECORD NOT_LISTED UNREAD".split()
)
NO_KIND = re.compile(r"BUDGET|MOST|ROOM|OBJECT|PER_PAGE|EVENTS|UNWRITTEN|COMMANDS|TYPES|FIRST_OUTPUT|LONGEST")
KIND = re.compile(r"\b(kind|command|policy|side|edition): u8")
MEMORY = set("svids modes identity run held_svids held_modes held_identity held_run entered out".split())
NO_CONVERSION = re.compile("append|with|read|modes|pairs|svids|objects")
# What contracts say of the lent memory as a whole.
TERMS = ["memory_lent", "held_catalogue", "(length run.now) (length held_run.now)", "catalogue_of", "length out.old"]
KEPT_WORDS = set("fn pub let mut if else match while return as true false for in".split())
NUMBERS = {"u8", "u16", "u32", "u64", "usize"}

BY_READING = {
    "1 a bool that stands for success": """
        streams/input: fill fill_halves fill_words linking/start: read_modes mend/saving: succeeded
        write_or_remove make give_name save mend/mending_file: save_as show/showing: show_svid
    """,
    "1 a kind as a bool": """
        dock/lib: Standing confirming/lib: move_on text/line: append_one append_each linking/at_dock: answer
    """,
    "1 a number that stands for no value": """
        linking/start: read_modes_at files/argument: argument cases/written: write nothing
    """,
    "2 twin types": """
        laptop/lib: Wait Step Laptop port/lib: Wait Step Own dock/lib: Step records/lib: Found events/lib:
        Found Mode driving/calls: Taken laptop_events/event: Taken link_events/event: Taken judging/walk: Walk
        rebuilding/lib: Rebuilt stretches/lib: Place Stretch messages/request: Request
    """,
    "2 twins, by reading": """
        messages/object: first_objects pages/list: first_svids is_in sound publishing/publishing: first_counts
        word_at streams/input: first_bytes half_of fill_halves fill_words laptop/places: number_at place_of
        pages/lib: value_at loading/list: object_or_zero svids_from objects_from owner/lib: missing
        owner_refusal discover send rebuilding/words: word_at object_of put_word objects_in put_modes
        answers/answers: put_word put_mark put_words gathering/gathering: put_values reading/lib: objects_in
        refused linking/at_dock: place_of taking/lib: before all_new events/calls: half_of records/lib:
        svid_of catalogue/numbers: put_words writing/lib: put_objects mending/keeping: put_kept timers/lib:
        response_timer entry_timer exit_timer port/waiting: response_timer entry_timer exit_timer
        protocol_error modes/lib: enter exit enter_refusal exit_refusal named_by port/owners: next start_over
        drop enter exit owners_refusal controller/laptop_timers: laptop_response_timer laptop_entry_timer
        laptop_exit_timer laptop_protocol_error controller/laptop_owner: laptop_next laptop_start_over
        laptop_drop laptop_enter laptop_exit controller/dock_calls: dock_sent dock_failed dock/replying:
        send_bare refused accepted send answering/lib: decline laptop/calls: refused accepted catalogue/lib:
        refused rebuilding/lib: refused accepted stretches/lib: refused place_in judging/lib: ending
        watcher/lending: svids_of bytes_of identity_of run_of driving/digest: of_bytes of_halves of_words
        driving/owning: lent shown memory_of with_memory linking/start: read_words read_halves driving/fields:
        with_held append_held with_number driving/line: with_text with_decimal with_half with_word
        with_edition with_bytes dock_events/report: append_output vectors/write_vector: append_output
        catalogue_files/read_file: append_part answer catalogue_files/file: begin_line at_most append_number
        vectors/main: begin_line answer_all laptop_events/event: at_most take_watcher_call take_report
        take_catalogue take_lengths catalogue_files/main: answer_all dock_events/main: answer_all
        laptop_events/main: answer_all answer_stream link_events/main: answer_all answer_events
        link_events/event: take_laptop_call laptop_events/report: with_laptop link_events/report: with_laptop
        with_catalogue cases/report: with_catalogue dock_events/event: take_svids take_objects take_bytes
        catalogue_files/read_record: answer link_events/system: end_at with_side laptop_events/answering:
        output_for port/sides: own_of put_back text/line: append_half append_word laptop_events/event: take_half
        controller/told: port_in
    """,
    "3 a library's method written out, without a loop": """
        laptop/places: number_at modes_number pages/lib: value_at loading/list: object_or_zero
        publishing/publishing: word_at first_counts owner/lib: missing rebuilding/words: word_at object_of
        behind_first put_word messages/object: first_objects pages/list: first_svids streams/input:
        first_bytes bytes_from driving/owning: lent shown answers/answers: put_word catalogue_files/file:
        at_most laptop_events/event: at_most gathering/gathering: counted linking/far_end: counted
        laptop/marks: report files/input: is_dash show/argument: without_prefix digit_of watcher/acting:
        message_in laptop_events/answering: object_in streams/block: unread_bytes text/line: print_line
    """,
    "3 an unrolled list": """
        gathering/gathering: values_of
    """,
    "4 a conversion": """
        reading/lib: edition_said head_of writing/lib: version_of header_of reading/object: joined
        messages/object: bytes_of events/calls: half_of call_of records/lib: svid_of streams/input: half_of
        word_of length_of dock_events/event: policy_of request_of vectors/write_vector: head_of
        link_events/event: linked linking/start: edition_of names_edition driving/owning: other
        messages/edition: edition_named controller/port_state: wait_in controller/numbers: low_byte
        controller/told: hand_over catalogue/numbers: word_number put_number gathering/gathering: high_half
        low_half values_of driving/digest: of_half watcher/acting: side_of watcher/main: turn_of events/kinds:
        side_of without_side
    """,
    "4 copying field by field": """
        port/sides: own_in seen stepped_on rebuilding/lib: accepted messages/request: request_of head_for
        driving/owning: hear_with make
    """,
    "4 order": """
        messages/edition: lower catalogue_files/file: at_most laptop_events/event: at_most
    """,
    "5 a fact about a walk": """
        judging/passing: identified listed with_mode moved passed mending/keeping: kept_of rebuilding/words:
        put_modes stretches/lib: place_in
    """,
    "5 other parameters that always travel together": """
        hearing/awaited: hear_answer gather hearing/hearing: hear_request gathering/gathering: hear_identity
        hear_svids answers/answers: hear_modes judging/lib: judge judging/passing: listed passed
        stretches/lib: place_in taking/lib: is_ending is_full judge_ending modes/lib: enter exit enter_refusal
        exit_refusal port/owners: enter exit controller/laptop_owner: laptop_enter laptop_exit
        controller/dock_calls: dock_load dock_message dock_policy_answer dock_sent dock_failed
        controller/dock_state: dock_from controller_c/laptop_owner: laptop_enter laptop_exit
        controller_c/dock_calls: dock_load dock_message dock_policy_answer dock_sent dock_failed
        link_events/at_laptop: make run_out arrive link_events/system: take_permitted take_linked
        catalogue/entries: put_entries entries_length modes_at catalogue/lib: catalogue_length
    """,
    "6 a position beside a buffer, parallel arrays": """
        judging/walk: Walk judging/lib: judge streams/block: Unread move_to_front watcher/state: State
        driving/owning: Memory linking/far_end: Modes records/reader: Reader messages/lib: Reading laptop/lib:
        Size catalogue/entries: modes_at linking/at_dock: modes_at place_of laptop/places: place_of
    """,
    "7 a number or flag picks the step": """
        answering/lib: give_other policy_answer hearing/awaited: gather text/line: append_one linking/at_dock:
        answer heard dock_events/main: answer_next gathering/gathering: hear_svids catalogue_files/main:
        answer_next vectors/main: answer_next watcher/acting: act link_events/system: take_permitted
        link_events/at_laptop: run_out
    """,
    "7 one frame around several steps": """
        port/owners: next start_over drop enter exit port/waiting: response_timer entry_timer exit_timer
        protocol_error catalogue_files/main: answer_all vectors/main: answer_all dock_events/main: answer_all
        laptop_events/main: answer_stream answer_all link_events/main: answer_events answer_all
    """,
    "beside: a range tested by hand": """
        events/kinds: is_message names_mode says_side is_partners records/lib: is_identity hearing/awaited:
        brings_part modes/lib: has_mode timers/lib: timer loading/lib: good_data answering/lib: give_identity
        give_modes reading/lib: read receiving/lib: receive
    """,
}

CHANGED = {
    "1 a bool that stands for success": """
        streams/input: fill fill_halves fill_words linking/start: read_modes mend/saving: write_or_remove make
        give_name save mend/mending_file: save_as
    """,
    "1 a flag or number beside a value": """
        linking/start: Start linking/link: Answer
    """,
    "1 a function that takes a refusal as a number": """
        cases/dock_cases: print_answer
    """,
    "1 a number that stands for no value": """
        files/argument: argument
    """,
    "2 functions of one skeleton": """
        controller/port_writing: candidate_number writing/lib: version_of port/waiting: response_timer entry_timer
        exit_timer protocol_error
    """,
    "2 twins, by reading": """
        catalogue/numbers: put_words catalogue_files/read_file: answer catalogue_files/read_record: answer
        driving/digest: of_bytes driving/owning: lent gathering/gathering: put_values laptop/places: place_of
        laptop_events/event: take_lengths laptop_events/main: answer_stream loading/list: objects_from svids_from
        mending/keeping: put_kept pages/lib: value_at pages/list: is_in reading/lib: objects_in
        rebuilding/words: object_of objects_in word_at streams/input: fill_halves fill_words taking/lib: before
        owner/lib: discover writing/lib: put_objects answers/answers: put_words
    """,
    "3 a library's method written out, without a loop": """
        driving/owning: lent files/input: is_dash gathering/gathering: counted laptop/marks: report
        laptop/places: modes_number pages/lib: value_at pages/list: first_svids rebuilding/words: object_of word_at
        show/argument: without_prefix text/line: print_line
    """,
    "3 an unrolled list": """
        gathering/gathering: values_of
    """,
    "4 a conversion": """
        catalogue/numbers: put_number gathering/gathering: values_of messages/object: bytes_of
        messages/edition: try_from catalogue_files/file: add_numbers
    """,
    "4 copying field by field": """
        driving/owning: make
    """,
    "4 equality": """
        controller/port_same: same_own same_wait messages/request: same_request taking/lib: same
    """,
    "4 printing": """
        cases/reading_case: print_reading vectors/read_vector: print_answer vectors/write_vector: print_answer
    """,
    "5 other parameters that always travel together": """
        catalogue/entries: entries_length modes_at put_entries hearing/awaited: gather hear_answer
    """,
    "6 a position beside a buffer, parallel arrays": """
        catalogue/entries: modes_at laptop/places: place_of
    """,
    "7 one frame around several steps": """
        laptop_events/main: answer_stream port/owners: next start_over drop enter exit port/waiting: response_timer
        entry_timer exit_timer protocol_error
    """,
    "beside: a range tested by hand": """
        events/kinds: is_message names_mode says_side is_partners modes/lib: has_mode timers/lib: timer
    """,
}


def sources(commit):
    if not commit:
        paths = glob.glob("crates/*/src/*.rt") + glob.glob("crates/*/proofs/**/*.antt", recursive=True)
        return {path: open(path, encoding="utf-8").read() for path in sorted(paths)}
    archive = tarfile.open(fileobj=io.BytesIO(subprocess.check_output(["git", "archive", commit, "crates"])))
    names = [n for n in archive.getnames() if re.match(r"crates/\w+/(src/.*\.rt|proofs/.*\.antt)$", n)]
    return {n: archive.extractfile(n).read().decode("utf-8", "replace") for n in sorted(names)}


def items(path, text):
    """The structs, enums, constants and functions of a file, as `rt fmt` sets them."""
    lines, n = text.split("\n"), 0
    while n < len(lines):
        found = re.match(r"( *)(?:pub(?:\(crate\))? )?(?:extern \"C\" )?(fn|struct|enum|const) (\w+)", lines[n])
        if not found:
            n += 1
            continue
        indent, kind, name = found.groups()
        start, head, contract = n, [], []
        while True:
            line = lines[n].strip()
            (contract if contract or re.match(r"(requires|ensures)\b", line) else head).append(line)
            if line == "{" or line.endswith(("{", ";")) and not contract or line.endswith("}") and kind != "fn":
                break
            n += 1
        end = n
        if not lines[n].strip().endswith((";", "}")):
            while lines[end] not in (indent + "}", indent + "};"):
                end += 1
        body = "\n".join(lines[n + 1:end])
        yield Item(f"{path[7:]}:{start + 1}", kind, name, " ".join(head), " ".join(contract), body)
        n = end + 1


def parameters(item):
    return re.findall(r"(\w+): ([^,()]+(?:\([^)]*\))?)", item.head.split("->")[0])


def skeleton(item):
    """The function with its names numbered in order of their coming, and one type and one number for all."""
    names, out = {}, []
    for word in re.findall(r"\w+|[^\w\s]", item.head + item.body):
        if word in NUMBERS:
            word = "N"
        elif word[0].isdigit():
            word = "0"
        elif word not in KEPT_WORDS and re.match(r"\w", word):
            word = f"x{names.setdefault(word, len(names))}"
        out.append(word)
    return " ".join(out)


def repeats(body):
    """Whether three lines, or three items of a line, follow each other that differ in a number only."""
    for parts in [body.split("\n")] + [line.split(",") for line in body.split("\n")]:
        parts = [re.sub(r"(\w+ [+/] )?\b\d+|\bat\b", "#", part.strip(" []();,")) for part in parts]
        if any(a == b == c and "#" in a[1:] and "=>" not in a for a, b, c in zip(parts, parts[1:], parts[2:])):
            return True
    return False


def calls(body):
    return len(re.findall(r"=>\s*(?:\{\s*)?(?:return )?(?:\w+::)?[a-z]\w+\(", body))


def places(all_items):
    fns = [i for i in all_items if i.kind == "fn"]
    for i in all_items:
        if i.kind == "enum":
            variants = re.findall(r"(\w+)(\(.*?\))?,", i.body)
            if any(p for _, p in variants) and any(v in NO_VALUE for v, _ in variants):
                yield "1 an enum of the shape of Option or Result", i
        if i.kind == "struct":
            if re.search(r"(refusal|number): u8|turn: Turn|: bool|found: Found|outcome: ReadAs", i.body):
                yield "1 a flag or number beside a value", i
            if KIND.search(i.body):
                yield "1 a kind as a number, as a field", i
            if re.search(r"\[\w+; \w+\]", i.body) and re.search(r"(extent|count|length|\w+_words): (u8|usize)", i.body):
                yield "6 a struct with a buffer and its length", i
        if i.kind == "const" and re.search(r": u(8|16|32|64) =", i.head):
            if i.name in REFUSALS:
                yield "1 a constant for a refusal", i
            elif re.search(r": u8 =|_KIND|PD_SID", i.head) and not NO_KIND.search(i.name):
                yield "1 a constant for a kind", i
    for i in fns:
        named = dict(parameters(i))
        if re.search(r"-> u(8|32)\b", i.head) and REFUSING.search(i.name):
            yield "1 a function that answers a refusal as a number", i
        elif re.search(r"(number|refusal): u8", i.head) and TAKES.search(i.name):
            yield "1 a function that takes a refusal as a number", i
        in_number = re.search(r"\brefused(_on)?\(\d|return [1-9]\d*;|=> 5,", i.body)
        if in_number and re.search(r"Step|Reading|Bytes|u8", i.head):
            yield "1 a refusal written as a number", i
        if KIND.search(i.head):
            yield "1 a kind as a number, as a parameter", i
        for loop in re.findall(r"while (.*) \{", i.body):
            words = [w for w in re.findall(r"\w+", loop) if re.search(rf"\b{w} (\+|-)= 1;", i.body)]
            yield ("3 a loop that counts an index by hand" if words else "3 another loop with while"), i
        if repeats(i.body):
            yield "3 an unrolled list", i
        if re.match(r"same(_|$)", i.name):
            yield "4 equality", i
        if re.search(r"=> true,.*=> false,|=> false,.*=> true,", i.body, re.S):
            yield "4 equality with a variant, by match", i
        if re.search(r"_(from|numbers?)$", i.name) and "bytes" not in named and not NO_CONVERSION.match(i.name):
            yield "4 a conversion", i
        prints = re.match(
            r"(append|with)_.*-> (Line|usize)|add_.*&mut (line::)?Line|print_|write_turn", i.head[i.head.index(i.name):]
        )
        if prints and re.search(r"\bmatch |let \w+::", i.body):
            yield "4 printing", i
        if re.search(r"let (\w+) = [\w.]+\.\1;", i.body):
            yield "beside: a field copied into a name of its own", i
        if len(MEMORY & set(named)) >= 4:
            yield "5 four or more parameters of the lent memory", i
        if "at" in named and re.search(r"(line|out|block): &(mut )?\[u8\]", i.head):
            yield "6 a position beside a buffer, as parameters", i
        if "count" in named and re.search(r"objects: &\[u32; 6\]", i.head):
            yield "6 a count beside an array, as parameters", i
        if calls(i.body) >= 3 and not prints and i.name != "told_numbers":
            yield "7 a match that picks the step", i
        if i.body.count("return false;") >= 2:
            yield "beside: several `return false` in a row", i
        if re.search(r"\bas (u16|u32|u64|usize)\b", i.body):
            yield "beside: a number made wider (or narrower) with `as`", i
    by_skeleton = collections.defaultdict(list)
    for i in fns:
        if not i.place.startswith("controller_c/"):
            by_skeleton[skeleton(i)].append(i)
    for group in by_skeleton.values():
        for i in group if len(group) > 1 and len(skeleton(group[0]).split()) > 30 else []:
            yield "2 functions of one skeleton", i
    constants = collections.defaultdict(list)
    for i in all_items:
        if i.kind == "const" and i.head.endswith(";"):
            constants[i.name, i.head.split("=")[1]].append(i)
    for group in constants.values():
        for i in group if len(group) > 1 else []:
            yield "beside: a constant that stands more than once", i
    facts = collections.Counter()
    for i in fns:
        for clause in re.findall(r"requires (?:\w+ )?\{(.*?)\}(?= requires| ensures| \{|$)", i.contract):
            facts.update({re.sub(r"^[( ]+|[) ]+$", "", part) for part in clause.split("×")})
    for fact in TERMS:
        facts[fact] = sum(fact in i.contract for i in fns)
    for fact, number in facts.items():
        if number >= 3:
            yield "5 a fact in three or more contracts", Item(f"{number} contracts:", "", fact, "", "", "")


def listed(lists, all_items):
    """The items that the lists name, each with its point."""
    for point, names in lists.items():
        for crate, file, rest in re.findall(r"(\w+)/(\w+):((?: +\w+(?![/:\w]))+)", " ".join(names.split())):
            for i in all_items:
                if i.place.startswith(f"{crate}/src/{file}.rt:") and i.name in rest.split():
                    yield point, i


def main():
    texts = sources(sys.argv[1] if len(sys.argv) > 1 else None)
    all_items = [i for p, t in texts.items() if p.endswith(".rt") and "/src/" in p for i in items(p, t)]
    found = collections.defaultdict(dict)
    for point, i in places(all_items):
        found[point][i.place, i.name] = None
    for point, i in listed(BY_READING, all_items):
        found[point][i.place, i.name] = None
    for point, i in listed(CHANGED, all_items) if len(sys.argv) == 1 else []:
        found[point].pop((i.place, i.name), None)
    for point in sorted(found):
        print(f"\n{point}: {len(found[point])}")
        for place, name in sorted(found[point]):
            print(f"  {place} {name}")
    print("\n8 files Answers.antt and Invariants.antt, and their lines")
    proofs = collections.defaultdict(list)
    for path, text in texts.items():
        if re.search(r"/(Answers|Invariants)\.antt$", path):
            proofs[path.split("/")[1]].append(text.count("\n"))
    for crate, lines in sorted(proofs.items()):
        print(f"  {crate} {len(lines)} {sum(lines)}")
    print(f"  all {sum(map(len, proofs.values()))} {sum(map(sum, proofs.values()))}")
    print("\nplaces by point, each once")
    for point in sorted({p[0] for p in found if p[0].isdigit()}):
        print(f"  {point} {len({i for p, names in found.items() if p[0] == point for i in names})}")


if __name__ == "__main__":
    main()
