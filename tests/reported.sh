# The page that swimwatch report writes. tests/watched runs it in its folder. What the page should
# hold is what the other commands print, and an independent parser of HTML says what it holds.
# shellcheck shell=sh disable=SC2154

# parts_of FILE: reads a page. Prints for each block of data its id and its objects, a line each,
# and writes the picture to page.svg. Fails if an element is not closed, or something may be loaded.
parts_of() {
    python3 - "$1" <<'EOF'
import html.parser, json, re, sys
LONE = {"meta", "input"}
source = open(sys.argv[1], encoding="ascii").read()

class Page(html.parser.HTMLParser):
    def __init__(self):
        super().__init__(convert_charrefs=False)
        self.open, self.scripts = [], []
    def handle_starttag(self, tag, attributes):
        assert tag not in {"link", "img", "base", "iframe", "object", "embed"}, tag
        for name, value in attributes:
            assert name not in {"src", "srcset", "action", "xlink:href"}, name
            assert name != "href" or value.startswith("#"), value
            assert not name.startswith("on"), name
        if tag == "script":
            self.scripts.append((dict(attributes), []))
        if tag not in LONE:
            self.open.append(tag)
    def handle_startendtag(self, tag, attributes):
        self.handle_starttag(tag, attributes)
        self.open.pop()
    def handle_endtag(self, tag):
        assert self.open and self.open.pop() == tag, tag
    def handle_data(self, data):
        if self.open and self.open[-1] == "script":
            self.scripts[-1][1].append(data)

page = Page()
page.feed(source)
page.close()
assert not page.open, page.open
assert re.fullmatch(r"[\n -~]*", source), "bytes other than printable ASCII"
code = []
for attributes, data in page.scripts:
    if attributes.get("type") != "application/json":
        code.append("".join(data))
        continue
    for each in json.loads("".join(data)):
        print(attributes["id"], json.dumps(each, sort_keys=True))
assert len(code) == 1, "more than one script"
MARKUP = r"\b(innerHTML|outerHTML|insertAdjacentHTML|document\.write|createContextualFragment)\b"
LOADING = r"\b(eval|Function|import|fetch|XMLHttpRequest|WebSocket|sendBeacon)\b"
assert not re.search(MARKUP, code[0]) and not re.search(LOADING, code[0])
assert not re.search(r"@import|url\((?!#)", source)
assert set(re.findall(r"\w+:/+[^\"' <]*", source)) <= {"http://www.w3.org/2000/svg"}
svg = re.findall(r"<svg .*?</svg>\n", source, re.S)
assert len(svg) == 1, "more than one picture"
open("page.svg", "w").write(svg[0])
EOF
}

# same_objects ID WORD..: the page's block with this id has the objects that this command prints.
same_objects() {
    id=$1
    shift
    "$program" "$@" 2> err |
        python3 -c '
import json, sys
for line in sys.stdin:
    print(json.dumps(json.loads(line), sort_keys=True))' > wanted
    sed -n "s/^$id //p" parts > found
    check "a report has what $* prints"
}

# reported WORD..: the report of these captures, with these options, has what other commands print.
reported() {
    run report "$@"
    mv out page
    mv err said
    fault=
    parts_of page > parts 2> err || fault="; $(tail -n 1 err)"
    count "the report of $* is one page that loads nothing" "$fault"
    same_objects members members --merge --json "$@"
    same_objects timeline timeline --merge --json "$@"
    "$program" chart "$@" > wanted 2> err
    cp page.svg found
    check "the report of $* has its chart"
    sed -n 's/^about .*"read": "\(.*\)"}$/swimwatch: \1/p' parts > found
    tail -n 1 said > wanted
    check "the report of $* says what was read"
}

# probed WORD..: the report of these captures has their probes.
probed() {
    same_objects probes probes --json "$@"
}

if command -v python3 > /dev/null; then
    for each in captures/basic/all.pcap captures/late/kill.pcap examples/serf.pcap; do
        reported "$each"
        probed "$each"
    done
    reported captures/partition/w1.pcap captures/partition/w6.pcap
    probed captures/partition/w1.pcap captures/partition/w6.pcap
    reported --key-file examples/encrypted.key examples/encrypted.pcap
    probed --key-file examples/encrypted.key examples/encrypted.pcap
    reported --to 02:02:00 captures/basic/all.pcap
    probed --to 02:02:00 captures/basic/all.pcap
    run report --from 02:02:00 captures/basic/all.pcap
    parts_of out > parts 2> err
    same_objects timeline timeline --json --from 02:02:00 captures/basic/all.pcap
    same_objects members members --json captures/basic/all.pcap
    run report --member web-3 captures/basic/all.pcap
    parts_of out > parts 2> err
    same_objects timeline timeline --json --member web-3 captures/basic/all.pcap
    head -c 24 captures/basic/all.pcap > none.pcap
    reported none.pcap

    # forged BYTES: the page is whole if an Alive has them as the name and the metadata of a member
    forged() {
        name=$(raw "$1")
        front=0486a441646472a47f000001ab496e6361726e6174696f6e01a44d657461
        packet "$front${name}a44e6f6465${name}a4506f7274cd1f0aa356736ea0" > forged.pcap
        reported forged.pcap
    }
    # </script><script>alert(1), <!--<script>, "'>&lt;]]>, and a name that turns and ends lines
    forged 3c2f7363726970743e3c7363726970743e616c6572742831
    forged 3c212d2d3c7363726970743e
    forged 22273e266c743b5d5d3e
    forged e280ae676e702ee280a800
    # tags of it: {"a": "</script>\u2029"}
    forged ff81a161ac3c2f7363726970743ee280a9
else
    echo 'skipped: the parts of reports: there is no python3'
fi
run report --json captures/basic/all.pcap
explains 'swimwatch report --json'
