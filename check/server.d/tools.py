"""What `dig`, `kdig` and `drill` print of replies, compared with the model's reply to the same question."""
import re
import subprocess
from dataclasses import replace
from typing import Dict, List, NamedTuple, Sequence, Tuple

from messages import query
from replies import CODES, read_data
from report import Report
from transport import Address
from watch import Watched
from wire import Cursor, lower
from zones import Record, record_of

ZONE = "\n".join(
    [
        "example.com. 3600 IN SOA ns1.example.com. hostmaster.example.com. 7 7200 900 1209600 300",
        "example.com. 3600 IN NS ns1.example.com.",
        "example.com. 3600 IN NS NS2.example.com.",
        "example.com. 600 IN MX 10 mail.example.com.",
        "example.com. 600 IN MX 20 mail.other.test.",
        'example.com. 60 IN TXT "v=spf1 -all" "second string"',
        "ns1.example.com. 3600 IN A 10.0.0.53",
        "ns1.example.com. 3600 IN AAAA 2001:db8::53",
        "mail.example.com. 60 IN A 10.0.0.25",
        "www.example.com. 60 IN A 10.0.0.1",
        "www.example.com. 61 IN A 10.0.0.2",
        "WwW6.example.com. 60 IN AAAA 2001:db8:0:1::2",
        "web.example.com. 30 IN CNAME www.example.com.",
        "far.example.com. 30 IN CNAME elsewhere.test.",
        "broken.example.com. 30 IN CNAME nothing.example.com.",
        "_sip._udp.example.com. 60 IN SRV 1 2 5060 www.example.com.",
        "1.0.0.10.example.com. 60 IN PTR www.example.com.",
        "a.deep.name.example.com. 60 IN A 10.0.0.3",
        "*.wild.example.com. 60 IN A 10.0.0.4",
        "\\228\\046x.example.com. 60 IN A 10.0.0.5",
        *(f"chain{at}.example.com. 60 IN CNAME chain{at + 1}.example.com." for at in range(9)),
        "chain9.example.com. 60 IN A 10.0.0.9",
        *(f"many.example.com. 60 IN A 10.1.0.{at}" for at in range(1, 121)),
        *(f'texts.example.com. 60 IN TXT "{at}{"t" * 250}"' for at in range(9)),
    ]
)
CHILD = "\n".join(
    [
        "sub.example.com. 60 IN SOA ns1.sub.example.com. h.example.com. 1 3600 600 86400 30",
        "ns1.sub.example.com. 60 IN A 10.2.0.53",
        "www.sub.example.com. 60 IN A 10.2.0.1",
    ]
)
QUESTIONS = [
    ("www.example.com.", "A"), ("WWW.Example.COM.", "A"), ("www6.example.com.", "AAAA"), ("www.example.com.", "AAAA"),
    ("example.com.", "SOA"), ("example.com.", "NS"), ("example.com.", "MX"), ("example.com.", "TXT"), ("example.com.", "A"),
    ("web.example.com.", "A"), ("web.example.com.", "CNAME"), ("web.example.com.", "MX"), ("far.example.com.", "A"),
    ("broken.example.com.", "A"), ("_sip._udp.example.com.", "SRV"), ("1.0.0.10.example.com.", "PTR"),
    ("deep.name.example.com.", "A"), ("name.example.com.", "TXT"), ("x.wild.example.com.", "A"), ("*.wild.example.com.", "A"),
    ("nothing.example.com.", "A"), ("\\228\\046x.example.com.", "A"), ("chain0.example.com.", "A"), ("chain2.example.com.", "A"),
    ("chain3.example.com.", "AAAA"), ("many.example.com.", "A"), ("texts.example.com.", "TXT"), ("elsewhere.test.", "A"),
    ("com.", "SOA"), (".", "NS"), ("www.sub.example.com.", "A"), ("sub.example.com.", "SOA"), ("xsub.example.com.", "A"),
    ("nothing.sub.example.com.", "A"), ("www.example.com.", "TYPE65280"), ("www.example.com.", "ANY"),
]  # fmt: skip
HEAD = re.compile(r"^;; ->>HEADER<<- opcode: (\w+)[,;] (?:status|rcode): (\w+)[,;] id: (\d+)", re.M)
FLAGS = re.compile(
    r"^;; [Ff]lags: ?([a-z ]*?) ?; QUERY: (\d+)[,;] ANSWER: (\d+)[,;] AUTHORITY: (\d+)[,;] ADDITIONAL: (\d+)", re.M
)
ALL_FLAGS = {"qr": 15, "aa": 10, "tc": 9, "rd": 8, "ra": 7, "ad": 5, "cd": 4}


class Seen(NamedTuple):
    """What is seen of a reply: its code, its flags, its counts, and the records of answers and authorities."""

    code: str
    flags: frozenset
    counts: Tuple[int, ...]
    records: List[Record]


def decoded(reply: bytes) -> Seen:
    """What the bytes of a reply show."""
    flags, counts = int.from_bytes(reply[2:4], "big"), [int.from_bytes(reply[at : at + 2], "big") for at in (4, 6, 8, 10)]
    at, records = Cursor(reply, 12), []
    for _ in range(counts[0]):
        at.name(), at.take(4)
    for _ in range(counts[1] + counts[2]):
        owner, rtype, rclass, ttl, size = at.name(), at.number(2), at.number(2), at.number(4), at.number(2)
        records.append(Record(owner, ttl, rtype, read_data(at, rtype, size), rclass))
    names = frozenset(name for name, bit in ALL_FLAGS.items() if flags >> bit & 1)
    return Seen(CODES[flags & 15].upper(), names, tuple(counts), records)


def printed(text: str) -> Seen:
    """What a tool has printed of a reply."""
    head, flags = HEAD.search(text), FLAGS.search(text)
    if not head or not flags:
        return Seen(text, frozenset(), (), [])
    lines = [it for it in text.splitlines() if it and not it.startswith(";")]
    code = {"NOTIMPL": "NOTIMP"}.get(head[2], head[2])
    return Seen(code, frozenset(flags[1].split()), tuple(map(int, flags.groups()[1:])), [record_of(it) for it in lines])


class Mode(NamedTuple):
    """How a tool asks: its options, and what of a request follows from them."""

    options: List[str]
    is_stream: bool = False
    # The payload size that is announced, if one is.
    payload: object = 1232
    # Whether a truncated reply is asked for again over a stream.
    goes_on: bool = True
    flags: int = 0x0100


MODES: Dict[str, Dict[str, Mode]] = {
    "dig": {
        "UDP": Mode([]),
        "TCP": Mode(["+tcp"], is_stream=True),
        "+bufsize=512": Mode(["+bufsize=512"], payload=512),
        "+bufsize=4096": Mode(["+bufsize=4096"], payload=4096),
        "+noedns": Mode(["+noedns"], payload=None),
        "+ignore": Mode(["+ignore"], goes_on=False),
        "+noedns +ignore": Mode(["+noedns", "+ignore"], payload=None, goes_on=False),
        "+dnssec +norec +cd": Mode(["+dnssec", "+norec", "+cd"], flags=0x0010),
        "+tcp +noedns": Mode(["+tcp", "+noedns"], is_stream=True, payload=None),
        "+tcp +keepopen": Mode(["+tcp", "+keepopen"], is_stream=True),
    },
    "kdig": {
        "UDP": Mode(["+edns"]),
        "TCP": Mode(["+tcp", "+edns"], is_stream=True),
        "+noedns": Mode(["+noedns"], payload=None),
        "+bufsize=512 +ignore": Mode(["+bufsize=512", "+ignore"], payload=512, goes_on=False),
        "+tcp +keepopen": Mode(["+tcp", "+keepopen", "+edns"], is_stream=True),
    },
    "drill": {
        "UDP": Mode([], payload=None, goes_on=False),
        "TCP": Mode(["-t"], is_stream=True, payload=None),
        "-b 512": Mode(["-b", "512"], payload=512, goes_on=False),
    },
}
START = {"dig": ["dig", "-r", "+timeout=10", "+tries=1"], "kdig": ["kdig", "+timeout=10", "+retry=0"]}
# drill asks one question a call, so it asks each third one.
DRILL_QUESTIONS = [it for it in QUESTIONS if "\\" not in it[0]][::3]


def expected(watched: Watched, question: Tuple[str, str], tool: str, mode: Mode) -> Seen:
    """What the model shows of the reply to a question. An OPT record of the tool's has options, which change no reply."""
    request = query(*question, flags=mode.flags, payload=mode.payload)
    reply = watched.model.reply(request, mode.is_stream)
    if mode.goes_on and not mode.is_stream and reply[2] & 2:
        reply = watched.model.reply(request, True)
    seen = decoded(reply)
    if tool == "drill" and mode.payload is not None:
        # drill does not count the OPT record.
        seen = seen._replace(counts=(*seen.counts[:3], seen.counts[3] - 1))
    return in_lower_case(seen) if tool == "kdig" else seen


def in_lower_case(seen: Seen) -> Seen:
    """What kdig shows: it asks for names in lower case."""
    return seen._replace(records=[replace(it, owner=lower(it.owner)) for it in seen.records])


def outputs(tool: str, mode: Mode, address: Address, questions: Sequence[Tuple[str, str]]) -> List[str]:
    """What a tool prints of the replies to questions."""
    host, port = f"@{address[0]}", str(address[1])
    if tool == "drill":
        return [run(["drill", *mode.options, "-p", port, host, *it]) for it in questions]
    words = [word for name, rtype in questions for word in ("-q", name, "-t", rtype)]
    found = run([*START[tool], *mode.options, host, "-p", port, *words])
    parts = re.split(r"^(?=;; ->>HEADER<<-)", found, flags=re.M)[1:]
    return parts + [f"no reply: {found[-2000:]}"] * (len(questions) - len(parts))


def run(words: List[str]) -> str:
    done = subprocess.run(words, capture_output=True, text=True, timeout=300)
    return done.stdout


def try_tool(report: Report, watched: Watched, tool: str) -> None:
    """Asks all questions in each mode, directly and then through the relay, where the bytes are seen."""
    questions = DRILL_QUESTIONS if tool == "drill" else QUESTIONS
    for title, mode in MODES[tool].items():
        report.begin()
        for address in (watched.address, watched.relay.address):
            for question, text in zip(questions, outputs(tool, mode, address, questions)):
                seen = printed(text) if tool != "kdig" else in_lower_case(printed(text))
                report.check(f"{tool} {title} {question}", expected(watched, question, tool, mode), seen)
        seen = watched.compare(report, f"{tool} {title}")
        report.check(f"{tool} {title}: requests through the relay", True, len(seen) >= len(questions))
        report.check(f"{tool} {title}: only over a stream", True, not mode.is_stream or all(it.is_stream for it in seen))
        report.end(f"{tool} {title}")


def try_tools(report: Report, program: str, missing: List[str]) -> None:
    with Watched(program, [ZONE, CHILD]) as watched:
        for tool in MODES:
            if tool in missing:
                report.skip(tool, "cannot be installed")
            else:
                try_tool(report, watched, tool)
        report.begin()
        watched.compare_log(report, "log")
        report.end("the log of these questions")
