#!/bin/sh
# Opens pages of `page` in a browser, headless Chromium (a Debian package), and reads what stands there. The first is of a sample
# trace, in which each of four threads makes as many writes as the first word says, for a session of one megabyte: its tables
# are to have the counts of `report`. The same trace cut in its middle has a page that says so. A trace whose names would end a
# script, begin one, a comment or an image shows these names, and runs nothing. Where something is otherwise it says so and
# ends with 1. With a second word it leaves screenshots of the first page in that folder, 400 and 1,600 pixels wide, in light and
# dark. It needs python3; PROGRAM names another program than ./tracepipe, CHROMIUM another browser.
here=$(cd "$(dirname "$0")/.." && pwd) || exit 1
program=${PROGRAM:-$here/tracepipe}
writes=${1:-100000}
shots=$2
work=$(mktemp -d) || exit 1
trap 'rm -rf "$work"' EXIT

# The browser on a page of this name, in light (1) or dark (0), with these words.
browse() {
    page=$1 scheme=$2
    shift 2
    "${CHROMIUM:-chromium}" --headless=new --no-sandbox --disable-gpu --hide-scrollbars --user-data-dir="$work/profile" \
        --blink-settings=preferredColorScheme="$scheme" --virtual-time-budget=20000 "$@" "file://$work/$page.html" 2>"$work/said"
}

"$program" trace 4 "$writes" Sample-Web,Sample-Store,Sample-Jobs --mb 1 >"$work/whole" || exit 1
"$program" report <"$work/whole" >"$work/report" || exit 1
head -c "$(($(wc -c <"$work/whole") / 2))" "$work/whole" >"$work/half"
"$program" replay <"$here/examples/one_event.schedule" >"$work/small" || exit 1
python3 - "$work" <<'HOSTILE' || exit 1
import struct, sys

work = sys.argv[1]
NAMES = ["</script><script>document.title='ran'</script>", "<!--<script>\"'&amp;", "<img src=x onerror=\"document.title='ran'\">\\"]


def text(name):
    return (name + "\0").encode("utf-16-le")


def varuint(number):
    out = bytearray()
    while number >= 128:
        out.append(number % 128 + 128)
        number //= 128
    return bytes(out) + bytes([number])


# An object with a block's body, which begins at a multiple of four.
def block(at, name, body):
    start = b"\5\5\1" + struct.pack("<iii", 2, 2, len(name)) + name + b"\6" + struct.pack("<i", len(body))
    return start + bytes(-(at + len(start)) % 4) + body + b"\6"


# The small stream up to its definition, which has the names of strangers here, and its event once for each.
small = open(f"{work}/small", "rb").read()
stream = small[: small.index(b"\5\5\1\2\0\0\0\2\0\0\0\x0d\0\0\0MetadataBlock")]
header = b"\x14\0\1\0" + bytes(16)
blobs = b""
for id, name in enumerate(NAMES, 1):
    payload = struct.pack("<i", id) + text(name) + struct.pack("<i", id) + text(name) + struct.pack("<qiii", 0, 0, 4, 0)
    blobs += b"\xc0\0" + varuint(len(payload)) + payload
stream += block(len(stream), b"MetadataBlock", header + blobs)
blobs = b"\7\1\0\1\0\1\x64"
for id in range(2, len(NAMES) + 1):
    blobs += b"\1" + varuint(id) + b"\x64"
stream += block(len(stream), b"EventBlock", header + blobs)
open(f"{work}/hostile", "wb").write(stream + b"\1")
open(f"{work}/names", "w").write("\n".join(NAMES))
HOSTILE
for trace in whole half hostile; do
    "$program" page <"$work/$trace" >"$work/$trace.html"
    status=$?
    [ "$status" = "$([ "$trace" = half ] && echo 3 || echo 0)" ] || { echo "page of $trace: status $status" && exit 1; }
    browse "$trace" 1 --window-size=1600,1000 --dump-dom >"$work/$trace.dom" || { cat "$work/said" && exit 1; }
done
if [ -n "$shots" ]; then
    mkdir -p "$shots" || exit 1
    for width in 400 1600; do
        browse whole 1 --window-size="$width,1600" --screenshot="$work/light.png" || exit 1
        browse whole 0 --window-size="$width,1600" --screenshot="$work/dark.png" || exit 1
        mv "$work/light.png" "$shots/$width-light.png" && mv "$work/dark.png" "$shots/$width-dark.png" || exit 1
    done
fi
python3 - "$work" <<'READ'
import base64, collections, hashlib, re, sys
from html.parser import HTMLParser

work = sys.argv[1]


def expect(holds, what):
    if not holds:
        sys.exit(f"not so: {what}")


# The tables of a page under their headings, its scripts' types, its title, and what it warns of.
class Page(HTMLParser):
    def __init__(self, name):
        super().__init__()
        self.tables, self.scripts, self.texts, self.inside = {}, [], collections.defaultdict(str), []
        self.feed(open(f"{work}/{name}.dom").read())

    def handle_starttag(self, tag, attributes):
        self.inside.append((tag, dict(attributes)))
        if tag == "script":
            self.scripts.append(dict(attributes).get("type"))
        elif tag == "h2":
            self.heading = ""
        elif tag == "tbody":
            self.rows = self.tables[self.heading] = []
        elif tag == "tr" and "tbody" in [it[0] for it in self.inside]:
            self.rows.append([])
        elif tag == "td":
            self.rows[-1].append("")

    def handle_endtag(self, tag):
        while self.inside and self.inside.pop()[0] != tag:
            pass

    def handle_data(self, data):
        tags = [it[0] for it in self.inside]
        if "td" in tags:
            self.rows[-1][-1] += data
        elif "h2" in tags:
            self.heading += data
        elif "title" in tags and "svg" not in tags:
            self.texts["title"] += data
        elif self.inside and "error" in self.inside[-1][1].get("class", ""):
            self.texts["error"] += data


def number(text):
    return int(text.replace(",", ""))


# The page runs the script that it names and no other.
source = open(f"{work}/whole.html").read()
script = re.search(r"<script>(.*?)</script>", source, re.S).group(1)
hash = base64.b64encode(hashlib.sha256(script.encode()).digest()).decode()
expect(f"script-src 'sha256-{hash}'" in source, f"the page names the hash of its script, sha256-{hash}")

# Its tables have the counts of a report, but for what was defined and not used.
threads, providers, events, stacks = {}, {}, {}, {}
for kind, *words in (line.split() for line in open(f"{work}/report")):
    if kind == "thread":
        threads[words[0]] = [int(word) for word in words[1:]]
    elif kind == "provider" and words[0] != "0":
        providers[words[1]] = int(words[0])
    elif kind == "event" and words[0] != "0":
        events[(words[3], words[4], int(words[1]), int(words[2]))] = int(words[0])
    elif kind == "stack":
        addresses = [bytes.fromhex(words[1])[at : at + 8][::-1].hex() for at in range(0, len(words[1]) // 2, 8)]
        stacks["\n".join(f"0x{address}" for address in addresses)] = int(words[0])
page = Page("whole")
expect(page.texts["title"] == "tracepipe: a trace" and page.texts["error"] == "", "a whole trace")
found = {row[0]: [number(cell) for cell in row[1:4]] for row in page.tables["Threads"]}
expect(found == threads, f"the threads {threads}: {found}")
found = {row[0]: number(row[1]) for row in page.tables["Providers"]}
expect(found == providers, f"the providers {providers}: {found}")
found = {(row[0], row[1], number(row[3]), number(row[4])): number(row[2]) for row in page.tables["Events"]}
expect(found == events, f"the events {events}: {found}")
found = {row[1]: number(row[0]) for row in page.tables["Most used stacks"]}
expect(found.items() <= stacks.items(), f"stacks with their counts: {found}")
expect(sorted(found.values()) == sorted(stacks.values())[-20:], f"the most used stacks: {found}")
expect(page.scripts == [None, "application/json"], "one script and one element of data")

half = Page("half")
expect(re.match(r"The trace is wrong at offset \d+: Truncated\.", half.texts["error"]), f"a warning: {half.texts['error']}")
expect(half.scripts == [None, "application/json", "application/json"], "an element of data for the error")

hostile = Page("hostile")
names = open(f"{work}/names").read().split("\n")
expect(sorted(row[1] for row in hostile.tables.get("Events", [])) == sorted(names), f"the names: {hostile.tables}")
expect(hostile.texts["title"] == "tracepipe: a trace", f"nothing ran: {hostile.texts['title']}")
expect(hostile.scripts == [None, "application/json"], f"no script of a stranger: {hostile.scripts}")
total = sum(it[0] for it in threads.values())
print(f"{total} events, {sum(it[2] for it in threads.values())} lost, in a page of {len(source)} bytes: the counts of report; half of it says so; names of strangers stay names")
READ
