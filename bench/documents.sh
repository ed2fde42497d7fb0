#!/bin/sh
# Compares what the documents show with what is. First what needs no program: that links lead somewhere, that each crate
# stands in the map, that what the documents cite of a crate or a file stands there, and clauses in contracts, that each wrong
# body can be planted, that limits and statuses are those of the code, that include/tracepipe.h and the example in Python have
# the crate's structs and codes, and README.md's size, kit, counts, snippets and figures. Then each run in README.md and
# docs/*.md (an indented block with lines `$ ..`) is made anew in a folder of its own, and its output compared; a line `...`
# stands for whatever follows, and of a run of `trace` the numbers of stacks and points, which differ from run to run, are
# passed over. So is what needs two terminals, `run` and the clients, of which `bench/run.sh` makes the like. It ends with 1 if
# anything differs. It needs python3, xxd and the kit's rt.
#
#   bench/documents.sh [PROGRAM]      runs this program, by default the proved one
here=$(cd "$(dirname "$0")/.." && pwd) || exit 1
exec python3 - "$here" "${1:-$here/tracepipe}" <<'COMPARE'
import functools, glob, os, re, subprocess, sys, tempfile

here, program = sys.argv[1], os.path.abspath(sys.argv[2])
README = f"{here}/README.md"
DOCUMENTS = [README, f"{here}/CONTRIBUTING.md", *sorted(glob.glob(f"{here}/docs/*.md"))]
CRATES = {os.path.basename(it) for it in glob.glob(f"{here}/crates/*")}
OURS = re.compile(r"\./tracepipe (?!(run|greet|ps|collect|stop) )|xxd ")
# README.md is to be read at once.
MOST_LINES, MOST_BYTES = 200, 14_000
# Limits that documents say: the document, the words around the number, the file of the constant and its name.
LIMITS = [
    ("README.md", "1 to # chunks of", "ep_defs/src/limits.rt", "CHUNKS"),
    ("README.md", "chunks of # bytes", "ep_defs/src/limits.rt", "CHUNK_BYTES"),
    ("README.md", "# sessions and", "ep_defs/src/limits.rt", "SESSIONS"),
    ("README.md", "and # threads stand at once", "ep_defs/src/limits.rt", "THREADS"),
    ("README.md", "at most # frames", "ep_defs/src/limits.rt", "FRAMES"),
    ("README.md", "and # bytes of payload", "ep_defs/src/limits.rt", "PAYLOAD_BYTES"),
    ("docs/COMMANDS.md", "more than # events were taken", "nt_write/src/limits.rt", "FRAMED_EVENTS"),
    ("docs/COMMANDS.md", "THREADS threads (1 to #)", "ep_defs/src/limits.rt", "THREADS"),
    ("docs/COMMANDS.md", "WRITES writes each (0 to #)", "ep_defs/src/limits.rt", "WRITES"),
    ("docs/COMMANDS.md", "1 to # parts `NAME`", "ep_defs/src/limits.rt", "RULES"),
    ("docs/COMMANDS.md", "a level that is left out is # (", "ep_auto/src/limits.rt", "VERBOSE"),
    ("docs/COMMANDS.md", "of which # count at most", "ipc_body/src/limits.rt", "MEGABYTES"),
    ("docs/COMMANDS.md", "count at most, by default #.", "pt_asked/src/limits.rt", "USUAL_MEGABYTES"),
    ("docs/COMMANDS.md", "a number of 64 bits, by default #, says", "pt_asked/src/limits.rt", "USUAL_SEED"),
    ("docs/COMMANDS.md", "a schedule of N writes, 1 to #,", "pt_gen/src/limits.rt", "MOST_WRITES"),
    ("docs/COMMANDS.md", "after every # writes", "pt_gen/src/limits.rt", "SWEEP_ROUNDS"),
    ("docs/COMMANDS.md", "rows of threads (1 to #)", "ep_defs/src/limits.rt", "THREADS"),
    ("docs/COMMANDS.md", "making WRITES writes (0 to #)", "ep_defs/src/limits.rt", "WRITES"),
    ("docs/COMMANDS.md", "| `--seed S` | of 64 bits | # |", "pt_run/src/limits.rt", "USUAL_SEED"),
    ("docs/COMMANDS.md", "| `--wait N` | 1 to # |", "pt_run/src/limits.rt", "MOST_WAIT"),
    ("docs/COMMANDS.md", "| `--wait N` | 1 to 64 | # |", "pt_run/src/limits.rt", "USUAL_WAIT"),
    ("docs/COMMANDS.md", "| `--streamers K` | 1 to # |", "pt_run/src/limits.rt", "MOST_STREAMERS"),
    ("docs/COMMANDS.md", "| `--streamers K` | 1 to 64 | # |", "pt_run/src/limits.rt", "USUAL_STREAMERS"),
    ("docs/COMMANDS.md", "| `--lives L` | 1 to # |", "pt_run/src/limits.rt", "MOST_LIVES"),
    ("docs/COMMANDS.md", "| `--lives L` | 1 to 100 | # |", "pt_run/src/limits.rt", "USUAL_LIVES"),
    ("docs/COMMANDS.md", "| `--calls M` | 1 to # |", "pt_run/src/limits.rt", "MOST_CALLS"),
    ("docs/COMMANDS.md", "Each link begins with # bytes", "ipc_reverse/src/limits.rt", "ADVERT_BYTES"),
    ("docs/COMMANDS.md", "is called again after # ms", "pt_system/src/caller.rt", "REST_MILLISECONDS"),
    ("docs/COMMANDS.md", "`long`, more than # events", "nt_write/src/limits.rt", "FRAMED_EVENTS"),
    ("docs/COMMANDS.md", "up to # at once", "ep_defs/src/limits.rt", "SESSIONS"),
    ("docs/COMMANDS.md", "a run takes # connections", "ep_journal/src/limits.rt", "CONNECTIONS"),
    ("docs/COMMANDS.md", "the request has at most # bytes", "ipc_frame/src/limits.rt", "MESSAGE_BYTES"),
    ("docs/SCHEDULES.md", "(more than # bytes)", "ep_plan/src/limits.rt", "LINE_BYTES"),
    ("docs/SCHEDULES.md", "budget and 1 to # rules", "ep_defs/src/limits.rt", "RULES"),
    ("docs/C.md", "at most # bytes of each kind of block", "nt_blocks/src/limits.rt", "WRITTEN_BYTES"),
    ("include/tracepipe.h", "at most # bytes of events with", "nt_blocks/src/limits.rt", "WRITTEN_BYTES"),
    ("include/tracepipe.h", "tp_define: # others are there", "ep_defs/src/limits.rt", "EVENTS"),
    ("include/tracepipe.h", "tp_event: more than # bytes of frames", "nt_write/src/limits.rt", "STACK_BYTES"),
    ("include/tracepipe.h", "tp_event: more than # bytes */", "ep_defs/src/limits.rt", "PAYLOAD_BYTES"),
    ("include/tracepipe.h", "tp_event: # other threads", "nt_blocks/src/limits.rt", "POINT_THREADS"),
    ("include/tracepipe.h", "tp_event: # events with frames", "nt_write/src/limits.rt", "FRAMED_EVENTS"),
    ("include/tracepipe.h", "of more than # units or with a zero unit, more than", "ep_defs/src/limits.rt", "NAME_UNITS"),
    ("include/tracepipe.h", "more than # fields", "ep_defs/src/limits.rt", "FIELDS"),
    ("include/tracepipe.h", "deeper than # objects", "ep_defs/src/limits.rt", "FIELD_DEPTH"),
]
# The structs of include/tracepipe.h and of examples/c/tick.py, by their names in crates/tp_c.
SHAPES = {"Info": "tp_info", "Definition": "tp_definition", "Field": "tp_field", "EventHead": "tp_event_head"}
# The first two numbers of the line `items` are events and definitions.
VARYING = re.compile(r"^(items\s+\d+\s+\d+)\s+\d+\s+\d+$")


@functools.cache
def read(path):
    with open(path) as it:
        return it.read()


@functools.cache
def text_of(crate):
    """The sources and the definitions of a crate."""
    names = [it for part in ("src", "specs") for it in glob.glob(f"{here}/crates/{crate}/{part}/**/*", recursive=True)]
    return "\n".join(read(name) for name in sorted(names) if name.endswith((".rt", ".antt")))


def tell(path, what):
    print(f"{os.path.relpath(path, here)}: {what}")


def quoted_in(text):
    return re.findall(r"`([^`]+)`", text)


def has_word(text, word):
    """Whether the name stands in the text, and those before its `::` too; a `*` stands for the rest of a name."""
    return all(re.search(rf"\b{re.escape(it)}\b".replace(r"\*", r"\w+"), text) for it in word.split("::") if it != "laws")


def rows_of(path):
    """The rows of a document's tables: the words at the head of the first column, and the row's cells."""
    rows, head = [], None
    for line in read(path).splitlines():
        if not line.startswith("|"):
            head = None
            continue
        cells = [it.strip() for it in line.strip("|").split(" | ")]
        if head is None:
            head = cells[0].strip()
        elif not cells[0].startswith("---"):
            rows.append((head, cells))
    return rows


def lead_somewhere(path):
    """Whether each link within the repository has its file."""
    wrong = 0
    for link in re.findall(r"\]\((?!https?:|#)([^)#]+)", read(path)):
        if not os.path.exists(os.path.join(os.path.dirname(path), link)):
            wrong += 1
            tell(path, f"a link to {link}, which is not there")
    return wrong


def are_named(path):
    """Whether the crates that the text names are there, and in them the names and files that stand behind theirs."""
    wrong = 0
    for name in quoted_in(read(path)):
        crate, between, rest = re.match(r"((?:ep|ipc|nt|pt)_[a-z_]+|tracepipe)?(::|/)?(.*)", name).groups()
        if crate is None or (between is None and (rest or crate in CRATES)):
            continue
        if between is None:
            is_there = any(has_word(text_of(it), crate) for it in CRATES)
        elif between == "/":
            is_there = glob.glob(f"{here}/crates/{name}*")
        else:
            is_there = crate in CRATES and has_word(text_of(crate), re.match(r"[\w:]+", rest)[0])
        if not is_there:
            wrong += 1
            tell(path, f"`{name}` is not there")
    return wrong


@functools.cache
def words_there():
    """Each word of the sources, the definitions and the proofs, and of the scripts and the C files."""
    names = glob.glob(f"{here}/crates/*/[sp]*/**/*", recursive=True)
    names += [it for at in ("bench", "bench/c", "c", "include", "examples/c", ".") for it in glob.glob(f"{here}/{at}/*")]
    texts = [read(it) for it in names if os.path.isfile(it) and not it.endswith(".md")]
    return {word for text in texts for word in re.findall(r"\w+", text)}


def are_there(path):
    """Whether the names of code that the text cites without a crate stand somewhere."""
    wrong = 0
    for name in quoted_in(read(path)):
        if re.fullmatch(r"[A-Za-z]\w*(::\w+)*", name) and re.search(r"_\w|::|[a-z][A-Z]", name):
            if not all(it in words_there() for it in name.split("::")):
                wrong += 1
                tell(path, f"`{name}` stands nowhere")
    return wrong


def are_mapped():
    """Whether the map has exactly the crates of crates.txt that are no tests, in their order."""
    path = f"{here}/docs/ARCHITECTURE.md"
    mapped = [quoted_in(cells[0])[0] for head, cells in rows_of(path) if head == "Crate" and len(cells) == 2]
    listed = [it for it in re.findall(r"^([a-z_]+)[ :]", read(f"{here}/crates.txt"), re.M) if not it.endswith("_tests")]
    if mapped != listed:
        odd = [it for it in listed if it not in mapped] + [it for it in mapped if it not in listed]
        tell(path, f"the map is not that of crates.txt: {', '.join(odd) or 'another order'}")
    return int(mapped != listed)


def are_defined(path):
    """Whether each definition of a table stands in one of the files that its row links to."""
    wrong = 0
    for head, cells in rows_of(path):
        files = re.findall(r"\]\(([^)#]+)\)", cells[-1])
        if head != "Definition" or not files:
            continue
        text = "\n".join(read(os.path.join(os.path.dirname(path), it)) for it in files)
        for name in quoted_in(cells[0]):
            if not has_word(text, name):
                wrong += 1
                tell(path, f"`{name}` does not stand in {', '.join(files)}")
    return wrong


def is_clause(name, kind, text):
    return re.search(rf"ensures\*? {name}\b" if kind == "clause" else rf"\b{name}\s*:", text)


def are_claimed():
    """Whether what a row of CLAIMS.md cites stands in its crates, and the clauses and fields as such."""
    path, wrong = f"{here}/docs/CLAIMS.md", 0
    for head, cells in rows_of(path):
        crates = [it for it in quoted_in(cells[1]) if it in CRATES] if len(cells) == 3 else []
        text = "\n".join(text_of(it) for it in crates)
        missing = [name for name in quoted_in(cells[2]) if not has_word(text, name)] if crates else []
        for group in cells[2].split(";") if crates else []:
            kind = re.search(r"\b(clause|field)s?\b(.*)", re.sub(r"\([^)]*\)", "", group))
            if kind:
                missing += [name for name in quoted_in(kind[2]) if not is_clause(name, kind[1], text)]
        for name in missing:
            wrong += 1
            tell(path, f"`{name}` is not in {', '.join(crates)} as is said")
    return wrong


def are_promised():
    """Whether the clauses that README.md names are those of the top call."""
    promised = {name for head, cells in rows_of(README) if head == "Of" for name in quoted_in(cells[-1])}
    missing = [it for it in sorted(promised) if not is_clause(it, "clause", read(f"{here}/crates/pt_cli/src/top.rt"))]
    for name in missing:
        tell(README, f"`{name}` is no clause of tracepipe")
    return len(missing)


def are_counted():
    """Whether the numbers of crates and of wrong bodies are those of the repository."""
    wrong = 0
    for what, count in [
        ("wrong bodies", len(glob.glob(f"{here}/crates/*/must-fail/*.edit"))),
        ("crates", len(CRATES)),
    ]:
        for least, said in re.findall(rf"(more than )?([\d,]+) {what}", read(README)):
            number = int(said.replace(",", ""))
            if number != count and not (least and number < count):
                wrong += 1
                tell(README, f"{least}{said} {what}: there are {count}")
    return wrong


def fault_of(edit):
    """What is wrong with a wrong body: each old text stands exactly once in its file, as the lines before have left it."""
    texts, at, old = {}, None, None
    for line in read(edit).splitlines():
        word, _, text = line.partition(": ")
        if word == "file":
            at = f"{os.path.dirname(os.path.dirname(edit))}/{text.strip()}"
            if not os.path.exists(at):
                return f"no file {text}"
            texts.setdefault(at, read(at))
        elif word == "old":
            old = text
            if at is None or texts[at].count(old) != 1:
                return f"does not stand exactly once: {old.strip()}"
        elif word.rstrip(":") == "new":
            texts[at] = texts[at].replace(old, text)
    return None if old else "changes nothing"


def are_planted():
    """Whether each wrong body can be planted in the sources as they are."""
    wrong = 0
    for edit in sorted(glob.glob(f"{here}/crates/*/must-fail/*.edit")):
        fault = fault_of(edit)
        if fault:
            wrong += 1
            tell(edit, fault)
    return wrong


def are_tested():
    """Whether each line of a snippet of README.md stands in a test that runs."""
    names = glob.glob(f"{here}/crates/*/src/**/*.rt", recursive=True)
    tests = "".join(read(name) for name in names if "/tests" in name)
    lines = [line.strip() for block in re.findall(r"```rust\n(.*?)```", read(README), re.S) for line in block.splitlines()]
    missing = [line for line in lines if line and line not in tests]
    for line in missing:
        tell(README, f"a snippet has what no test has: {line}")
    return len(missing)


def are_measured():
    """Whether each figure of README.md is one of docs/MEASURED.md."""
    figures = read(README).split("## Figures")[1].split("\n## ")[0]
    missing = [
        number
        for row in re.findall(r"^\| (?!What|---)(.*) \|$", figures, re.M)
        for number in re.findall(r"\d[\d,.]*(?: million)?(?: [a-z]+)?", row.split("|", 1)[1])
        if number.split()[0] not in read(f"{here}/docs/MEASURED.md")
    ]
    for number in missing:
        tell(README, f"a figure that docs/MEASURED.md has not: {number}")
    return len(missing)


def constants_of(path):
    """The numbers of the constants of a file of the crates."""
    found = re.findall(r"const ([A-Z_]+): \w+ = ([\d_]+);", read(f"{here}/crates/{path}"))
    return {name: int(number) for name, number in found}


def are_limits():
    """Whether the limits that the documents say are those of the code."""
    wrong = 0
    for document, words, file, name in LIMITS:
        before, after = (re.escape(it).replace(r"\ ", r"\s+(?:\*\s)?") for it in words.split("#"))
        said = re.findall(rf"{before}([\d,]*\d){after}", read(f"{here}/{document}"))
        if not said or any(int(it.replace(",", "")) != constants_of(file)[name] for it in said):
            wrong += 1
            tell(f"{here}/{document}", f"{words.replace('#', ' or '.join(said) or '#')}: {name} is {constants_of(file)[name]:,}")
    return wrong


def are_statuses():
    """Whether the statuses of COMMANDS.md are those of the commands, with their names."""
    path = f"{here}/docs/COMMANDS.md"
    said = {(int(cells[0]), cells[1]) for head, cells in rows_of(path) if head == "Status"}
    of_code = constants_of("pt_command/src/status.rt").items()
    names = {"PEER_ERROR": "peer's error"}
    there = {(number, names.get(name, name.lower().replace("_", " "))) for name, number in of_code}
    if said != there:
        tell(path, f"statuses that are not those of pt_command: {sorted(said ^ there)}")
    return int(said != there)


def field_of(kind, name):
    """A field of a struct: its name, how many bytes a number of it has, and how many numbers it is."""
    bits, count = re.search(r"u(?:int)?(\d+)", kind)[1], re.search(r"[;*] *(\d+)|\[(\d+)\]", kind + name)
    return (re.match(r"\w+", name)[0], int(bits) // 8, int(next(filter(None, count.groups()))) if count else 1)


def are_shaped():
    """Whether C's header and the example in Python have the structs of tp_c, field by field, and the header its codes."""
    shapes = read(f"{here}/crates/tp_c/src/shapes.rt")
    header, python = read(f"{here}/include/tracepipe.h"), read(f"{here}/examples/c/tick.py")
    wrong = 0
    for name, in_c in SHAPES.items():
        body = re.search(rf"pub struct {name} {{(.*?)\n}}", shapes, re.S)[1]
        ours = [field_of(kind, it) for it, kind in re.findall(r"pub (\w+): ([^,]+),", body)]
        body = re.search(rf"typedef struct {in_c} {{(.*?)}}", header, re.S)[1]
        told = {"include/tracepipe.h": [field_of(kind, it) for kind, it in re.findall(r"(\w+) ([\w\[\]]+);", body)]}
        body = re.search(rf"class {name}\(.*?\n\n\n", python, re.S)
        if body:
            told["examples/c/tick.py"] = [field_of(kind, it) for it, kind in re.findall(r'\("(\w+)", ([^)]+)\)', body[0])]
        for path in [it for it, fields in told.items() if fields != ours]:
            wrong += 1
            tell(f"{here}/{path}", f"the struct {name} is another one than in tp_c")
    codes = {f"TP_{name}": number for name, number in constants_of("tp_c/src/codes.rt").items()}
    named = re.search(r"enum {\s*(TP_OK.*?)}", header, re.S)[1]
    said = {name: int(number) for name, number in re.findall(r"(TP_\w+) = (\d+)", named) if name != "TP_NULL"}
    if said != codes:
        tell(f"{here}/include/tracepipe.h", f"codes that are not those of tp_c: {sorted(said.items() ^ codes.items())}")
    return wrong + int(said != codes)


def is_short():
    """Whether README.md can be read at once, and names the kit that is here."""
    text, wrong = read(README), 0
    kit = subprocess.run(["rt", "version"], capture_output=True, text=True).stdout.strip()
    for is_wrong, what in [
        (text.count("\n") > MOST_LINES or len(text.encode()) > MOST_BYTES, f"more than {MOST_LINES} lines or {MOST_BYTES:,} bytes"),
        (f"`rt version` prints `{kit}`" not in text, f"it does not name the kit, {kit}"),
    ]:
        if is_wrong:
            wrong += 1
            tell(README, what)
    return wrong


def runs_of(path):
    """The runs in a document: the command, and the lines that it is shown to print."""
    runs, is_open = [], False
    for line in read(path).splitlines():
        told = re.match(r"(?: {4}| {7})(.*)", line)
        if told and told[1].startswith("$ "):
            runs.append((told[1][2:].split(" #")[0].strip(), []))
            is_open = True
        elif told and is_open:
            runs[-1][1].append(told[1])
        elif line.strip():
            is_open = False
    return runs


def is_shown(shown, printed):
    """Whether the lines that a document shows are those that were printed."""
    for at, line in enumerate(shown):
        if line == "...":
            return True
        if at >= len(printed) or VARYING.sub(r"\1", line) != VARYING.sub(r"\1", printed[at]):
            return False
    return len(shown) == len(printed)


def differ(path, room):
    """How many runs of a document print something else, of how many."""
    runs = [(command, shown) for command, shown in runs_of(path) if OURS.match(command)]
    wrong = 0
    for command, shown in runs:
        ran = subprocess.run(command, shell=True, cwd=room, capture_output=True, text=True)
        printed = (ran.stdout + ran.stderr).splitlines()
        if not is_shown(shown, printed):
            wrong += 1
            tell(path, command)
            print("  shown:  ", *shown, sep="\n    ")
            print("  printed:", *printed[:20], sep="\n    ")
    return wrong, len(runs)


def run_all():
    """Makes the runs of all documents, in one folder, where `./tracepipe` is the program."""
    if subprocess.run([program, "gen", "0", "16"], stdout=subprocess.DEVNULL).returncode:
        print("there is no program to run")
        return 1
    with tempfile.TemporaryDirectory() as room:
        with open(f"{room}/tracepipe", "w") as script:
            script.write(f'#!/bin/sh\nexec "{program}" "$@"\n')
        os.chmod(f"{room}/tracepipe", 0o755)
        os.symlink(f"{here}/examples", f"{room}/examples")
        ran = [differ(path, room) for path in DOCUMENTS]
    wrong = sum(it[0] for it in ran)
    print(f"{sum(it[1] for it in ran)} runs, {wrong} differ")
    return wrong


wrong = sum(lead_somewhere(path) + are_named(path) + are_there(path) + are_defined(path) for path in DOCUMENTS)
wrong += are_mapped() + are_claimed() + are_promised() + are_counted() + are_planted() + are_tested() + are_measured()
wrong += are_limits() + are_statuses() + are_shaped() + is_short()
print(f"words, counts and figures: {wrong} differ")
wrong += run_all()
sys.exit(1 if wrong else 0)
COMPARE
