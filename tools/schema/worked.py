"""The worked scenarios of the repository, the worked inputs of `host`, the worked images and the worked traces, each with what the reader says of it."""
import json
import re
from typing import NamedTuple

from .rattle import NoData, Source, Struct, end_of, find, split

BAD = re.compile(r"bad scenario: code (\d+) step (\d+)")
# A document's row of a fault: the code, a scenario between backticks, and the message.
FAULT_ROW = re.compile(r"\| \d+ \| `(\{.*\})` \| `(bad scenario: .*)` \|")
# The line that tells people of a fault: where it is, and what its code is called.
HINT = re.compile(r"(?:outside of the steps|guest \d+(?:, preset \d+)?|step (\d+)): (\w+)")
NAMES = ("Shape", "Limit", "UnknownRegister", "UnknownActor", "NotLoaded", "PeBusy", "PeStep", "WireLevel", "Address")
MAX_STEPS = 100_000
# How the name of an example of `host` begins, and the crate whose tests have inputs of `host`.
LINKED = "host-"
LINKED_ROWS = "host_rows"
# How the name of an example of `save` begins, whose text is an image, and that of one of `resume`, which is one; and the crate whose tests have images.
SAVED = "save-"
RESUMED = "resume-"
IMAGE_ROWS = "image_rows"
# How the name of an example of `check` begins.
JUDGED = "check-"
# The crate whose tests have traces with faults, its table of whole ones, how the texts of its events begin, and a trace in a document.
TRACE_ROWS = "trace_rows"
WHOLE_TRACES = "TRACES"
EVENT = '{"by":'
TRACE_BLOCK = re.compile(r"```json\n(\{.*?\})\n```", re.DOTALL)
# The crates whose tests have other inputs than scenarios.
OTHER_ROWS = (LINKED_ROWS, IMAGE_ROWS, TRACE_ROWS)


class Row(NamedTuple):
    """A scenario as JSON, and the code and the step of its fault; none where it has no fault."""
    place: str
    text: str
    fault: tuple | None


def fault_in(told):
    """The fault that a text names."""
    bad = BAD.match(told)
    return (int(bad[1]), int(bad[2])) if bad else None


def fault_told(line):
    """The fault that a line for people names; none where it is no such line."""
    told = HINT.match(line)
    return (NAMES.index(told[2]) + 1, int(told[1] or 0)) if told and told[2] in NAMES else None


def all_examples(root):
    """All of examples/, each with its text."""
    for path in sorted(root.glob("examples/*.json")):
        yield path.name, Row(f"examples/{path.name}", path.read_text(), fault_in(path.with_suffix(".txt").read_text()))


def examples(root):
    """The scenarios of examples/."""
    return (row for name, row in all_examples(root) if not name.startswith((LINKED, RESUMED, JUDGED)))


def linked_examples(root):
    """The inputs of `host` of examples/."""
    return (row for name, row in all_examples(root) if name.startswith(LINKED))


def trace_examples(root):
    """The traces of examples/."""
    return (row for name, row in all_examples(root) if name.startswith(JUDGED))


def image_examples(root):
    """The images of examples/: those that `resume` reads, and those that `save` writes."""
    yield from (row for name, row in all_examples(root) if name.startswith(RESUMED))
    for path in sorted(root.glob(f"examples/{SAVED}*.txt")):
        yield Row(f"examples/{path.name}", path.read_text(), None)


def all_documented(root):
    """What stands in the tables of faults."""
    for row in FAULT_ROW.finditer((root / "docs/SCENARIO.md").read_text()):
        yield Row("docs/SCENARIO.md", row[1], fault_in(row[2]))


def documented(root):
    """The scenarios in the tables of faults."""
    return (row for row in all_documented(root) if not is_linked(row.text))


def linked_documented(root):
    """The inputs of `host` in the tables of faults."""
    return (row for row in all_documented(root) if is_linked(row.text))


def is_linked(text):
    """A text is an object of `host`: its vCPUs stand outside of any guest."""
    return not {"vcpus", "links"}.isdisjoint(json.loads(text))


def sources(root):
    """The sources of all crates: each with the crate's and the module's name."""
    crates = {}
    for crate in sorted((root / "crates").iterdir()):
        paths = sorted((crate / "src").glob("*.rt"))
        crates[crate.name] = {path.stem: Source(crates, crate.name, path.read_text()) for path in paths}
    for crate, modules in crates.items():
        yield from ((crate, module, source) for module, source in modules.items())


def tests(root):
    """The scenarios of all tests, of whatever form."""
    for crate, module, source in sources(root):
        if crate in OTHER_ROWS:
            continue
        own = MADE.get((crate, module))
        rows = [*of_tables(source), *of_calls(source, is_made=own is not None), *(own(source) if own else [])]
        rows += of_texts(source, {text for _, text, _ in rows})
        yield from dict.fromkeys(Row(f"crates/{crate}/src/{module}.rt: {name}", text, fault) for name, text, fault in rows)


def of_tables(source):
    """The rows of the tables that are constants of a file: of structs, of an input, a status and a text, of
    a text with its fault and what is told of it, or of a text with the line that tells its fault."""
    for name in source.constants:
        for entry in table_of(source, name):
            if isinstance(entry, Struct) and {"before", "steps", "lines"} <= set(entry):
                yield f"{name}, {entry['shows']}", joined(entry), fault_in(entry["lines"][0])
            elif isinstance(entry, Struct) and {"scenario", "text"} <= set(entry):
                yield name, entry["scenario"], fault_in(entry["text"])
            elif isinstance(entry, tuple) and len(entry) == 3 and is_scenario(entry[0]):
                yield name, as_text(entry[0]), fault_in(entry[2])
            elif isinstance(entry, tuple) and len(entry) == 2 and is_fault(entry[0]):
                yield name, entry[0][0], entry[0][1:]
            elif isinstance(entry, tuple) and len(entry) == 2 and isinstance(entry[1], str) and is_object(entry[0]) and fault_told(entry[1]):
                yield name, entry[0], fault_told(entry[1])


def is_fault(entry):
    """A text with a code and a step."""
    return isinstance(entry, tuple) and len(entry) == 3 and isinstance(entry[0], str) and all(type(it) is int for it in entry[1:])


def table_of(source, name):
    """The elements of a constant that is a list; none where it is no list of data. One of scenarios has to be read, and whole."""
    has_scenarios = not {("name", "before"), ("name", "scenario")}.isdisjoint(source.constants[name])
    try:
        table = source.constant(name)
    except NoData:
        if has_scenarios:
            raise
        return []
    if has_scenarios and source.types[name][-2] != ("number", len(table)):
        raise NoData(f"{name} has {len(table)} rows")
    return table if isinstance(table, list) else []


def joined(row):
    """The scenario of a row whose steps are in parts."""
    steps = ",".join(step for part in row["steps"] for step in part)
    return f'{{{row["before"]},"steps":[{steps}]}}'


def as_text(text):
    """A text, or the text of its bytes."""
    return text.decode(errors="replace") if isinstance(text, bytes) else text


def fields_of(text):
    """The names of the fields of a text that is an object; none where it is none."""
    try:
        value = json.loads(as_text(text)) if isinstance(text, (str, bytes)) else None
    except ValueError:
        return None
    return set(value) if isinstance(value, dict) else None


def is_object(text):
    """A text is an object with guests or steps."""
    return not {"guests", "steps"}.isdisjoint(fields_of(text) or set())


def is_scenario(text):
    """A text is an object with guests and steps."""
    return {"guests", "steps"} <= (fields_of(text) or set())


def of_calls(source, is_made):
    """The rows of the calls that go over a table: each of it, between two texts, with its fault. A call with what a test makes in its code
    is no such call; `is_made` says that the file has some."""
    for at, token in enumerate(source.tokens):
        if token != ("name", "expect_faults") or source.tokens[at - 1] == ("name", "fn") or source.tokens[at + 1] != ("mark", "("):
            continue
        arguments = split(source.tokens[at + 2:end_of(source.tokens, at + 1)], ",")
        known = values_before(source, at)
        try:
            before, table, after = (source.value(tokens, known) for tokens in arguments[3:6])
        except NoData:
            if is_made:
                continue
            raise
        for middle, fault in table:
            yield arguments[4][-1][1], before + middle + after, fault


def values_before(source, end):
    """The values of the names that a file binds before a place, each by its last binding, as far as they are data."""
    known = {}
    for at in range(end):
        if source.tokens[at] != ("name", "let"):
            continue
        if source.tokens[at + 1] == ("name", "mut"):
            known.pop(source.tokens[at + 2][1], None)
        elif source.tokens[at + 2] == ("mark", "="):
            name = source.tokens[at + 1][1]
            known.pop(name, None)
            try:
                known[name] = source.value(source.tokens[at + 3:find(source.tokens, at + 3, ";")], known)
            except NoData:
                pass
    return known


def of_texts(source, within):
    """The texts that are whole scenarios by themselves and in no row: of each its test asks that it is read."""
    for kind, text in source.tokens:
        if kind == "text" and is_scenario(text) and as_text(text) not in within:
            yield "a text", as_text(text), None


# Scenarios that tests make in their code, made here in the same way.

def many(source):
    """All steps of a guest."""
    steps = ",".join(step for part in source.constant("PARTS") for step in part)
    yield "GUEST and PARTS", f'{source.constant("GUEST")}{steps}]}}', None


def messages(source):
    """The steps of a guest that are not made one by one."""
    steps = ",".join(step for name in ("SETUP", "OTHER_LPI", "ROUND_OF_1") for step in source.constant(name))
    yield "GUEST and its set-up", f'{source.constant("GUEST")}{steps}]}}', None


def registers(source):
    """A read and a write of each register."""
    before = '{"guests":[{}],"steps":[{"vcpu":[0,0],"icc":"'
    for name, is_read, is_written in source.constant("REGISTERS"):
        yield "REGISTERS", f'{before}{name}"}}]}}', None if is_read else (3, 1)
        yield "REGISTERS", f'{before}{name}","write":40}}]}}', None if is_written else (3, 1)


def full(source):
    """As many steps as there may be, the first of which is none, and one more."""
    before = '{"guests":[{}],"steps":[{}' + ",7" * (MAX_STEPS - 1)
    yield "counts_steps", before + "]}", (1, 1)
    yield "counts_steps", before + ",7]}", (2, 0)


def hinted(source):
    """Each step of a guest, with the line that tells its fault, or that of a step before it."""
    for steps, line in source.constant("STEPS"):
        yield "STEPS", f'{{"guests":[{{}}],"steps":[{steps}]}}', fault_told(line)


MADE = {("thr_rows", "many"): many, ("thr_rows", "messages"): messages, ("scn_rows", "steps"): registers, ("scn_rows", "outside"): full, ("hint_rows", "steps"): hinted}


def linked_tests(root):
    """The inputs of `host` of its tests: whole ones with their text or with the code and the step of their fault, or with its code alone; and
    steps between two texts, with the code and the step of their fault or none."""
    files = {module: source for crate, module, source in sources(root) if crate == LINKED_ROWS}
    runs, faults = files["runs"], files["faults"]
    rows = [("ROWS", text, fault_in(told)) for text, told in runs.constant("ROWS")]
    rows += [("REFUSED", text, (code, step)) for text, code, step in runs.constant("REFUSED")]
    rows += [("WHOLES", text, (code, 0)) for text, code in faults.constant("WHOLES")]
    rows += [("STEPS", faults.constant("BEFORE") + steps + faults.constant("AFTER"), fault) for steps, fault in faults.constant("STEPS")]
    rows += [("APART", faults.constant("APART"), None)]
    return (Row(f"crates/{LINKED_ROWS}: {name}", text, fault) for name, text, fault in rows)


def image_tests(root):
    """The images of their tests: one with each change of a table, and one with each of its numbers changed, each with the code and the step of its fault."""
    files = {module: source for crate, module, source in sources(root) if crate == IMAGE_ROWS}
    for module, image, tables in (("active", "ACTIVE", ("WRONG", "RECORDS")), ("mapped", "MAPPED", ("CHANGES",))):
        for name in tables:
            whole = files[module].constant(image)
            yield from (Row(f"crates/{IMAGE_ROWS}: {name}", whole.replace(old, new, 1), fault) for old, new, fault in files[module].constant(name))
    numbers = files["sweep"].constant("NUMBERS")
    for at, (_, stands, more, most) in enumerate(numbers):
        for number, fault in ((stands + 1, more), (2**64 - 1, most)):
            text = "".join(f"{before}{number if place == at else stands}" for place, (before, stands, _, _) in enumerate(numbers))
            yield Row(f"crates/{IMAGE_ROWS}: NUMBERS", text + "}", fault)


def trace_documented(root):
    """The traces in the page on them."""
    return (Row("docs/TRACES.md", block[1], None) for block in TRACE_BLOCK.finditer((root / "docs/TRACES.md").read_text()))


def trace_tests(root):
    """The traces of their tests: events in one of the guest of the tests, with the code and the step of their fault or none, and whole traces."""
    files = {module: source for crate, module, source in sources(root) if crate == TRACE_ROWS}
    faults, guest = files["faults"], files["table"].constant("GUEST")
    rows = [(name, text, fault) for name in faults.constants for text, fault in faults.constant(name)]
    rows += [("SAID", text, None) for kind, text in files["said"].tokens if kind == "text" and text.startswith(EVENT)]
    for name, text, fault in rows:
        whole = text if name == WHOLE_TRACES else f'{{"guest":{guest},"events":[{text}]}}'
        yield Row(f"crates/{TRACE_ROWS}: {name}", whole, fault)


def looks_like_part(text):
    """A text may be a part of a scenario: it is no format of texts, no image of a saved run, and no line that tells a fault."""
    return '"guests"' in text and "{{" not in text and '"done"' not in text and not HINT.match(text)


def left_out(root, rows):
    """The texts in sources that look like a part of a scenario and are in no row."""
    whole = "\n".join(row.text for row in rows if len(row.text) < MAX_STEPS)
    for crate, module, source in sources(root):
        if crate in OTHER_ROWS:
            continue
        for kind, text in source.tokens:
            if kind == "text" and looks_like_part(as_text(text)) and as_text(text) not in whole:
                yield f"crates/{crate}/src/{module}.rt: {as_text(text)[:60]}"
