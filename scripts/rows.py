"""Where the rows of data are, and why some went: a table of their files, and one of their operations (CONTRIBUTING.md).

usage: python3 scripts/rows.py [--check]

Each row of a program of rows either stays, as a row of the program `rows`; or goes, because a clause of a contract says the
same of every value; or stays in `rows_layers` until a program that users run can read it. The rows of the first two kinds are counted
here, as they were, those of the last kind in their files.

With --check, the rows of the programs that are gone are compared with the files of `rows`, by their number. The status is 1 if they
differ.
"""
import sys
from collections import Counter
from pathlib import Path

ROOT = Path(__file__).resolve().parent.parent

# The rows of the programs that `rows` takes the place of, by file and operation, as they were. Of the 41 rows of `write 41-3`
# three go by a clause.
TRIED = """
rows_wire addresses: reverse 19, prefix-name 59, prefix 10, address 56, write-address 6
rows_wire classes: class 43, class-code 16, opt-class 10-10, same-class 7-7
rows_wire compression: write 41-3, write-over 9, all-names 7
rows_wire decimals: decimal 51
rows_wire decoder: read 45
rows_wire encoder: write 72-9, write-over 6
rows_wire items: all 10, all-refs 4, all-iter 4, fitting 5, first 4
rows_wire labels: label 21, label-hex 14, label-ascii 2, label-debug 2, label-lower 2, label-sizes 4, into-label
    11-11, label-order 14
rows_wire names_limits: name 32, sizes 17, append-hex 4, append 4, prepend 3, prepend-hex 3, join 4, domain 2,
    origin 3
rows_wire names_order: order 36, order-case 6, equal 12, equal-case 5, equal-labels 5, equal-labels-case 3, zone 11,
    zone-case 5
rows_wire names_parts: base 8, lower-base 2, trim 11, star 6, lower-star 2, name-is 15, prepend 9, prepend-hex 3,
    append 4, append-hex 2, join 7, domain 4, origin 10, from-labels 11, into-name 8-8, lower-copy 2
rows_wire names_text: name 100, relaxed 5, ascii 7, debug 5, debug-lower 2, lower 4, lower-name 2, name-hex 5,
    origin-hex 5
rows_wire names_wire: read 94
rows_wire numbers: encode 33, decode 52
rows_wire sentences: decode-error 10, encode-error 2, proto-error 7, parse-error 5, code-error 1, lexer-error 5
rows_wire serials: serial 80
rows_wire special_use: usage 19
rows_wire tokens: tokens 107, lines 5, unescape 9
rows_wire ttl: ttl 82, ttl-hex 4-4
rows_wire types: type 131, type-code 92, type-is 40-40, same-type 8-8
rows_data canonical: write-canonical 10
rows_data decoding: read 43
rows_data encoding: write 19, write-whole 3
rows_data hostile: read 51
rows_data lengths: length 25
rows_data parsing: parse 98
rows_data printing: print 31
rows_data sizes: parse 4, read 10, write 5, print 1
rows_data values: same 41, address 6, held 14-14, copy 14-14, character-string 4
rows_formats bitmaps: read 34, print 17, fits 11
rows_formats dnssec: read 49, print 6
rows_formats examples: read 49, print 36, fits 1
rows_formats generic: read 27, print 8
rows_formats kinds: read 63, print 12
rows_formats location: read 78, print 7, fits 16
rows_formats mnemonics: read 42, print 5
rows_formats service: read 63, fits 7, print 14
rows_message builder: update 88
rows_message changes: changes 14-14, types 3-3
rows_message decoding: message 84
rows_message dig: print 57
rows_message encoding: encode 71
rows_message headers: response-code 29, code-number 20-20, code-parts 13-13, code-of-parts 8-8, op-code 11, header
    56, message-header 1, encode-header 5, place-header 2-2, new-header 3-3, response-header 7-7, merge-code 6-6
rows_message hostile: message 96, message-header 1, fronts 8-8, octets 6-6
rows_message lines: line 22
rows_message messages: message 216, message-header 5
rows_message opt: message 45, encode 32, record 4
rows_message pieces: questions 7-7, section-records 11-11, head 6, behind-owner 3-3, emit-parts 6-6
rows_message printed: print 19
rows_message rebuilt: rebuild 4-4, rebuild-update 1-1, truncate 3, strip 4, rebuild-singly 3-3,
    rebuild-update-singly 2-2, parts 5-5, records 4-4, response 18, response-of 5, response-error 3
rows_message record_sets: set 45, address-set 2-2, single-sets 1-1
rows_message records: question 15, record 74, same-data 33, equal-questions 11, new-question 3-3, same-question 20,
    sound 25, section 9-9
rows_message truncated: encode 60
rows_message updates: create 4, append 2, append-existing 2, compare-and-swap 3, delete-by-rdata 3, delete-rrset 2,
    delete-all 3, message 4, encode 4
rows_faults log: json 16
rows_tsig codes: hmac 24, same 12-12
rows_tsig exchanges: exchange 61
rows_tsig hmac: hmac 38
rows_tsig replies: follow 29
rows_tsig requests: verify 19
rows_tsig signing: request 24, sign 36
stub_bench calls: name-read 1, name-write 1, name-parse 1, name-print 1, name-compare 1, name-clone 1, data-read 1,
    data-write 1, data-parse 1, data-print 1, message-read 3, message-view 3, message-write 3, message-clone 3
"""

# The operation of `rows` that takes the place of one, where it has another name.
NOW = {
    "rows_wire": {
        "all-names": "`write names`",
        "all": "`write all`",
        "all-refs": "`write refs`",
        "all-iter": "`write iter`",
        "fitting": "`write fitting`",
        "first": "`write first`",
        "label-ascii": "`label-view ascii`",
        "label-debug": "`label-view debug`",
        "label-lower": "`label-view lower`",
        "label-sizes": "`label-view sizes`",
        "sizes": "`view sizes`",
        "append-hex": "`join append-hex`",
        "append": "`join append`",
        "prepend": "`join prepend`",
        "prepend-hex": "`join prepend-hex`",
        "join": "`join join`",
        "domain": "`join domain`",
        "origin": "`join origin`",
        "order": "`compare order`",
        "order-case": "`compare order-case`",
        "equal": "`compare equal`",
        "equal-case": "`compare equal-case`",
        "equal-labels": "`compare equal-labels`",
        "equal-labels-case": "`compare equal-labels-case`",
        "zone": "`compare zone`",
        "zone-case": "`compare zone-case`",
        "base": "`view base`",
        "lower-base": "`view lower-base`",
        "star": "`view star`",
        "lower-star": "`view lower-star`",
        "name-is": "`view kinds`",
        "lower-copy": "`view lower-copy`",
        "ascii": "`view ascii`",
        "debug": "`view debug`",
        "debug-lower": "`view lower-debug`",
        "lower": "`view lower`",
        "lower-name": "`view lower-copy`",
        "origin-hex": "`join origin-hex`",
        "encode": "`write`",
        "decode": "`read`",
        "decode-error": "`sentence decode`",
        "encode-error": "`sentence encode`",
        "proto-error": "`sentence proto`",
        "parse-error": "`sentence parse`",
        "code-error": "`sentence code`",
        "lexer-error": "`sentence lexer`",
    },
    "rows_data": {
        "write-canonical": "`data-bytes canonical`",
        "read": "`data-hex`",
        "write": "`data-bytes compressed`",
        "write-whole": "`data-bytes whole`",
        "length": "`data-view length`",
        "parse": "`data`",
        "print": "`data-view text`",
        "same": "`same data`",
        "address": "`data-view address`",
    },
    "rows_formats": {
        "read": "`format`",
        "print": "`format-text`",
        "fits": "`format-fits`",
    },
    "rows_message": {
        "message-header": "`message`",
        "encode-header": "`header-again`",
        "record": "`item record`",
        "head": "`item head`",
        "truncate": "`remake truncate`",
        "strip": "`remake strip`",
        "response-of": "`remake response`",
        "response-error": "`sentence response`",
        "question": "`item question`",
        "same-data": "`same record-data`",
        "equal-questions": "`same question`",
        "same-question": "`same asked`",
        "create": "`build create`",
        "append": "`build append`",
        "append-existing": "`build append-existing`",
        "compare-and-swap": "`build compare-and-swap`",
        "delete-by-rdata": "`build delete-by-rdata`",
        "delete-rrset": "`build delete-rrset`",
        "delete-all": "`build delete-all`",
    },
    "rows_tsig": {"request": "`sign`, without a code before it, as the clause `ok` of `sign_request` has it,"},
    "stub_bench": {
        f"{of}-{call}": f"`repeat {of}-{call}`"
        for of, calls in (
            ("name", "read write parse print compare clone"),
            ("data", "read write parse print"),
            ("message", "read view write clone"),
        )
        for call in calls.split()
    },
}

# The clause that says the same of every value. Its definition is tried by the rows that are named behind it.
CLAUSES = {
    "rows_wire": {
        "type-is": "the result of each `RecordType::is_*` is one comparison, or that of `is_dnssec` with a list: RFC 4034 and 4035",
        "same-type": "`RecordType::canonical` and its `eq`, over `type_of` and `type_number`, which `type-code` tries",
        "same-class": "`DNSClass::canonical` and its `eq`, over `class_of` and `class_number`, which `class-code` tries",
        "opt-class": "`DNSClass::for_opt` is the greater of the size and 512; the rows of opt.rows have such classes",
        "write": "`BinEncoder::with_name_encoding`, `emit_at` and `find_or_store_label_pointer`, and `Name::emit_with_behavior`, each of "
        "which is the step before or after it; `mode`, `data`, `store`, `find` and `sized` try these",
        "into-label": "`IntoLabel::into_label`, clauses `outcome` and `fault`, over the same definitions as `label` and `label-hex`",
        "into-name": "`IntoName::into_name`, over the same definition as `name`",
        "ttl-hex": "`parse_ttl_bytes` and `parse_ttl` are both `ttl_of_text`, which `ttl` tries",
    },
    "rows_data": {
        "held": "`RecordData::try_borrow`, clauses `some` and `none`",
        "copy": "`is_clone` of `RData` and of each of its types: a copy is the value",
    },
    "rows_message": {
        "code-number": "`ResponseCode::to_str` is `code_name` and `u16::from` is `code_number`: `response-code` prints 19 of the 20 names",
        "code-parts": "`ResponseCode::high`, `low`, `from_high_low` and `from_low`, over `code_high`, `code_low` and `code_from_parts`: "
        "the rows of opt.rows have codes of both parts",
        "code-of-parts": "the same",
        "merge-code": "`Metadata::merge_response_code`, over `code_from_parts`",
        "place-header": "`Place::replace`, over the encoding that `header-again` tries",
        "new-header": "`Metadata::new`",
        "response-header": "`Metadata::response_from_request`, over `response_metadata`, which serving.script tries",
        "fronts": "`Message::from_vec`: bytes that end in a record are refused; the inputs of `check/hostile` have all fronts",
        "octets": "`Message::from_vec` and `to_vec`, and the law that a decoded message is encoded as itself; the inputs of `check/hostile` have all octets",
        "questions": "`Message::read_queries`, clauses `read` and `refused`, over the relation of `Message::from_vec`",
        "section-records": "`Message::read_records`, clauses `read` and `refused`, over the relation of `Message::from_vec`",
        "emit-parts": "`emit_message_parts`, over the pieces of `Message::to_vec_within`, which `encode` tries",
        "behind-owner": "`emit_behind_owner`, clause `emits`, over the pieces of a record, which `encode` tries",
        "rebuild": "`Message::add_queries`, `add_answers`, `add_authorities`, `add_additionals`, `set_edns`, `set_signature`",
        "rebuild-singly": "`Message::add_query`, `add_answer`, `add_authority`, `add_additional`",
        "rebuild-update": "`UpdateMessage::add_zone`, `add_pre_requisites`, `add_updates`, `add_additionals`",
        "rebuild-update-singly": "`UpdateMessage::add_zone`, `add_pre_requisite`, `add_update`, `add_additional`",
        "parts": "`Message::into_parts`",
        "records": "`Message::all_sections` and `Edns::to_record`, over `all_records` and `opt_record`",
        "address-set": "`RecordSet::with_ttl`, `add_rdata` and `new_record`, over the definitions that `set` tries",
        "single-sets": "`RecordSet::from_record`",
        "new-question": "`Query::new`, and its setters, each of which sets a field",
        "section": "`Sequence::push` and `extend`",
        "changes": "`update_code` and `update_changes`, clause `change`, over the definitions that the updates of scripts try",
        "types": "`ZoneRows::types` of a `SetList`, which the updates of scripts try for a zone",
    },
    "rows_zone": {
        "update": "`Zone::apply`, clauses `code` and `ok`, over the definitions that the others try: random zones and updates, messages of "
        "4,000 records, and a zone section whose name and type are both wrong, which a server judges by the name first",
        "apply": "`Zone::apply`, clauses `code` and `ok`, over the same definitions as `update`; they speak of neither QR nor the opcode",
        "limit": "`DatagramLimit::new`, clauses `ok` and `refused`",
        "serve": "`Zone::serve`, clause `reply`, over the definitions that the others try: requests of 65,535 bytes, and a name for which a "
        "server has no zone",
        "served-size": "`Zone::serve`, clause `reply`, over the definitions that the others try: replies of up to 65,535 bytes",
        "answer": "`Zone::answer`, clause `answer`, and `Zone::from_text`, clause `ok`, over the definitions that the others try: "
        "names for which a server has no zone, and further start of authority records of zone files",
        "build": "`dns_updates::laws` on builders, and `Zone::apply`, clauses `code` and `ok`: sets of 1,000 records",
        "frames": "`read_frame`, clause `read`, over `frame`, which `mutated_frames.rows` tries",
        "failing-frames": "`read_frame`, clauses `read` and `fails`",
        "write-frames": "`write_frame`, clause `ok`, over `frame`",
        "fault": "the `Display` of `ZoneFault`, which `zone-fault` of `stub` tries, with the same five sentences",
        "zone-file-with": "`Parser::parse`, clause `ok`: a text with an empty name, which no file to include has",
    },
    "rows_check": {
        "origin": "`states_origin` and `keep_origin_warnings`, over `has_directive` and `is_about_origin`, which the warnings of the case "
        "`warnings` try",
    },
    "rows_server": {
        "covers": "`AddressList::contains`, clauses `v4`, `mapped` and `v6`, over the definition that the others try: loopback addresses, which a server takes updates from "
        "whatever the list is",
        "cut": "the law `dns_server::laws::pieces_make_no_difference` and `Connection::complete`, clause `ok`, over `frame`, which "
        "`mutated_frames.rows` tries: random frames, and replies that no server makes",
        "waiting": "`Connection::next_message` and `complete`, clause `ok`, over the definitions that the part `streams` and `unread` of "
        "`streams.case` try: how many bytes wait in the program, and not in the system, no peer can tell",
    },
    "rows_faults": {
        "steps": "`truncated_reply`, over `IsTruncated`, and `set_wrong_question`, over `with_wrong_question`, which `faults.script` "
        "tries: replies that do not decode, or have no question, no server makes",
        "garbage": "`garbage`, over the definition that the others try: no bytes, which a table refuses",
        "waiting": "`Schedule::push`, clauses `ok`, `full` and `item`, and `pop_due`, over the definitions that the part `late` tries: "
        "a full schedule, and a moment of 2^64 - 1",
    },
    "rows_journal": {
        "read": "`read_journal`: no bytes are no journal, where a server begins one",
        "replaced": "`MemoryStorage`'s `replace_text` and `replace_journal`, over `performs`, which the files of `check/durable` try: no "
        "program has such a storage",
    },
    "rows_differences": {
        "kept": "`History::record`, clause `ok`, over `recorded`, which the others try: a history of no differences, which no server has",
    },
    "rows_transfers": {
        "copies": "`Notifier::next_due`, clauses `address` and `left`, over the definitions that `notifications.case` tries with the "
        "settings of the program",
    },
    "rows_tsig": {"same": "`dns_tsig::hmac::is_same`: whether two codes are equal"},
    "rows_stub": {
        "ask": "`WireHandle`'s `Asks`: what is sent is an encoding, as `encode` of `rows_values` tries it, and `IsUnsupported` "
        "says what is not sent; each want of memory is the case `memory`, and ids that run out are `ids_run_out`",
        "handle": "the same, and `WireHandle::send_update`; `counts`, `reset_counts`, `reserve`, `dropped`, `sent`, `ids_left`, "
        "`into_sent`",
        "resolve": "`Resolver::lookup` over the same, and over requests, which `request` tries",
        "link": "`ScriptedLink`'s `sends`, `receives` and `streams` over `Zone::serve`, which scripts of `nameserver` try",
        "follow": "`ScriptedLink`'s `sends`, `receives` and `streams` and `Asks`: the rows had two equal ids, several questions in "
        "an event, or updates that no line makes",
        "run": "`run`, clause `run`, over `Resolver::lookup` and `Resolver::lookup_ip`: search lists, strategies, hosts, bounds "
        "and preserved aliases are what `names`, `addresses`, `resolver`, `ranges` and `list` try",
        "run-script": "the same",
        "script": "`read_script`, clause `ok`: moments that no run has, which the cases `moment_too_late` and `moments_go_back` "
        "refuse, and the messages of updates, of which runs show the effect",
        "frame-cuts": "`read_frame` and `write_frame`, over `frame`, which `frames` tries",
        "unruly": "`WireHandle`'s `Wait`: of any link no more than sixteen datagrams are looked at",
        "words": "`read_words`, which has a clause for each option; values and defaults are the cases `cache_*`, `limit_*`, "
        "`max_ttl_*` and `origin_*`",
    },
    "rows_cache": {
        "cache": "`ResponseCache::insert`, `insert_message`, `insert_answer`, `get`, `clear_query` and `clamp_positive_ttls`, over `storing`, "
        "`current` and `clamped`, which the others try: replies that no lookup stores, a current entry that is replaced, another class, a type "
        "by its number, name servers with their addresses, and the limit of `with_stamp_limit`, which changes nothing",
        "ranges": "`TtlConfig::positive_response_ttl_bounds` and `negative_response_ttl_bounds`, over `bounds_of`, `positive_range` and "
        "`negative_range`, by which `list` with bounds keeps replies; and `TtlConfig::from_opts`, over `checked_config`",
        "equal": "the `eq` of `TtlConfig`, by the law `equal_configs_have_the_same_bounds`",
        "zone": "`CachingClient::lookup`, clause `lookup`: preserved aliases are what `list` tries",
        "resolver": "`Resolver::lookup` and `Resolver::clear_lookup_cache`: search lists, bounds and preserved aliases are what "
        "`names`, `ranges` and `list` try",
    },
    "refusals": {
        "plain": "the clauses that docs/MEMORY.md names, which determine the result of each call, without want of memory",
    },
    "rows_resolver": {
        "special": "`special_answer`, clause `answer`: another class is what `list` tries, and another code for a type is its "
        "number",
        "addresses": "`lookup_ip_names`, over `EndsWith`, which a literal address of `lookup` tries, `no_addresses`, and hosts by "
        "`Ipv4AndIpv6`, which `names` of `rows_layers` tries without hosts",
        "lookup-names": "`lookup_names`, over `no_names`, which is stated",
        "lookup-names-with-hosts": "`lookup_names_with_hosts`, over `Attempts`, which `names` of `rows_layers` tries: want of memory, and no names",
        "group": "`google`, `cloudflare` and `quad9`, clause `ips`, which states the addresses, and `ServerGroup::udp`, `tcp` and `udp_and_tcp`, "
        "over `server_of`, which resolv.conf files try",
        "config": "`ResolverConfig::from_parts`, `into_parts`, `set_domain`, `add_search` and `add_name_server`, each of which sets or "
        "adds to a field",
        "hosts": "`Hosts::lookup_static_host`, clause `found`: `static_lookup` does not look at the class",
        "hosts-bytes": "`Hosts::read_hosts_conf`: a line that is not UTF-8 leaves those before it, as `hosts_not_utf8` of `stub` shows the "
        "fault",
        "insert": "`Hosts::insert`, clauses `ok` and `err`, over `with_lookup`, by which `read_hosts_conf` adds the hosts that `hosts` tries",
        "from-rdata": "`Lookup::from_rdata`, over `lookup_of`, which literal addresses try",
        "with-max-ttl": "`Lookup::new_with_max_ttl`, over the same",
        "with-deadline": "`Lookup::new_with_deadline`, over the same",
        "append": "`Lookup::append`, over `joined`, which the addresses of both types try",
        "copy": "`Lookup::clone`: a copy is the value",
        "extend": "`Lookup::extend_authorities` and `extend_additionals`",
        "lookup-ip": "`LookupIp::iter` and `into_iter`, over the addresses of the answers, which `my_resolver` of `docs/libraries` prints",
        "message-of": "`Lookup::message`",
        "names": "`names_to_attempt`, over `attempted_names`: a number of labels above 15, which `lookup` refuses",
        "request": "`DnsRequest::from_query`, over `request_of` and `request_edns`: RD, DO and payload sizes that `lookup` does not set",
        "handle": "`DnsHandle::lookup`, over `request_of`, and the `gives` of `ListHandle`",
        "resolver": "`ResolverBuilder::build`, clauses `supported` and `unsupported`, over `Builds` and `is_unsupported`: whether hosts are used, "
        "and denied addresses; `Resolver::lookup_ip` of a name; want of memory and `Ipv4AndIpv6` as of `addresses`",
        "set-hosts": "`Resolver::set_hosts`, over the hosts that the others try",
        "requests": "`DnsRequest::from_query`, over `request_of`: no RD, and other payload sizes",
        "build": "`ResolverBuilder::build`, clauses `supported` and `unsupported`",
        "outcome": "`DnsError::from_response`, clause `outcome`, over the definitions that the others try: responses that a client does not "
        "take as they are, since it looks for what its question asks",
        "negative": "`NetError::into_no_records`, over `DnsError::from_response`; the texts are those of `error-text`",
    },
    "rows_net": {
        "schedule": "`NameServerPool`, whose `gives` is `Asks`, over definitions that the others try: streams alone, and a server without an "
        "address for them",
        "update": "`NameServerPool::send_update`, over the same: a server whose negative answers are not trusted",
    },
}

SCRIPT = "a script of `stub` with replies"
VALUES = "`rows`"

# Where the rows of `rows_layers` go, by the program that each of its subjects was: all of a program, or by operation.
LATER = {
    "rows_server": {},
    "rows_authority": {},
    "rows_faults": {},
    "rows_tsig": {},
    "rows_transfers": {},
    "rows_differences": {},
    "rows_journal": {},
    "rows_zone": {},
    "rows_cache": {"*": SCRIPT, "bounds": VALUES},
    "rows_stub": {"*": SCRIPT}
    | {
        it: VALUES
        for it in ("link-fault", "script-fault", "zone-fault", "fault", "hosts-fault", "error-text", "sound", "sound-data", "sound-record", "fits")
    },
    "rows_resolver": {"*": VALUES},
    "rows_check": {},
    "hostile": {},
    "refusals": {},
    "stub_bench": {},
    "rows_net": {},
}


# The rows that are exchanges of the scripts of `nameserver` now, by file and operation, as they were: a row may have had several
# requests. One of `any` asked for a transfer, which the program makes. Of the 25 rows of `apply 25-23` 23 go by a clause.
SCRIPTED = """
rows_authority any: answer 10, first 7
rows_authority redirection: answer 7
rows_authority replies: respond 16, header 12
rows_authority resolution: answer 12
rows_authority wildcards: answer 18
rows_differences differences: ixfr 16, kept 6
rows_faults steps: steps 70
rows_server covering: covers 173-3, loopback 17
rows_server zones: respond 136
rows_transfers incremental: ixfr 11, refused 1, datagram 2
rows_transfers notifications: serial 7
rows_transfers serials: raise 14
rows_transfers transfers: axfr 10
rows_tsig malformed: verify 27
rows_tsig nsupdate: verify 12
rows_tsig requests: verify 39
rows_zone answers: answer 144-9
rows_zone building: build 97-6
rows_zone chains: answer 75, serve 5, served-size 17-2
rows_zone changes: update 259-1, apply 60-23
rows_zone cutting: served-size 116-3, serve 6
rows_zone existence: answers 6
rows_zone findings: answer 15-12
rows_zone prerequisites: update 216, apply 72-72
rows_zone prescan: update 159, apply 53-53
rows_zone random_updates: update 32-32, apply 32-32
rows_zone serving: serve 204-3, limit 7-7
rows_zone stored_zones: answer 33
rows_zone updating: update 292-4, apply 25-23
rows_zone zones: answer 6
"""
IN_SCRIPTS = "a script of `nameserver`, `crates/nameserver/data/*.script`"

# The rows that are runs of the cases of check/program now, by file and operation, as they were, and how many of them go by a clause.
CASED = """
rows_cache aliases: list 46
rows_cache cache: cache 77-29
rows_cache chains: zone 41-7
rows_cache ttl: ranges 20-20, equal 15-15
rows_cache zones: zone 10-1, resolver 22-15
rows_net update_text: line 22, update-text 2
rows_resolver outcomes: outcome 49-19, negative 6-6
rows_resolver special_names: special 51-11
rows_stub all_types: play 7, play-with 19
rows_stub asking: ask 172-51
rows_stub chains: run 20
rows_stub equal_transports: run 54
rows_stub faults: play-fault 12, ending 17
rows_stub following: follow 72-29
rows_stub handles: handle 76-76
rows_stub json: play-with 13
rows_stub linking: link 23-23
rows_stub lookups: run 98-44
rows_stub playing: play 95, play-with 41, play-size 3
rows_stub premises: run-script 41-11
rows_stub requests: resolve 41-41
rows_stub running: run 105-13
rows_stub scripts: script 292-16
rows_stub streaming: ask 94-2, handle 6-6, frame-cuts 3-3
rows_stub trace: trace 10
rows_stub unruly: ask 10, unruly 2-2
rows_stub updating: follow 55-22, handle 61-61
rows_stub words: words 175-63
rows_stub zone_files: play 65, play-with 24
rows_zone zone_files: zone-file 1
rows_zone zones: zone 1
"""
IN_CASES = "a case of `check/program`"

# The rows that are runs of the cases of check/zonecheck now, or parts of one, by file and operation, as they were, and how many of them
# go by a clause. Of the rows `zone-fault` and `fault` of `zones`, 34 are in stub/faults.rows.
CHECKED = """
rows_check all: all 71, zone 5, all-with 9, all-line 2, all-on 2, line 3
rows_check faults: zone 62, zone-at 3, bytes 6, zone-json 2
rows_check scripts: script 34, script-line-2 2, moment 1
rows_check warnings: zone 43, zone-at 7, origin 4-4
rows_zone all_types: zone-file-all 106, zone-file 9, zone-all 6, included-names 3
rows_zone entries: entries 8
rows_zone findings: zone 9
rows_zone frames: frames 370-370, failing-frames 64-64, write-frames 18-18
rows_zone limits: zone 37
rows_zone lines: zone 357
rows_zone long_texts: zone-file-repeated 32
rows_zone stored_zones: zone-file-at 1, zone-at 14, zone-with 1, zone-file 6, zone 18
rows_zone zone_files: zone-file 358, zone-file-at 8, zone-file-with 39-1
rows_zone zones: zone 140, zone-at 33, zone-with 14, fault 5-5
"""
IN_CHECKS = "a case of `check/zonecheck`"
# The rows that are runs of the cases of check/nameserver now, or lines of one, by file and operation, as they were, and how many of them
# go by a clause.
NAMED = """
rows_differences differences: kept 6-1
rows_faults log: entry 3
rows_faults steps: steps 6-2, garbage 4-1
rows_faults tables: table 97
rows_faults waiting: waiting 7-3
rows_journal crashes: crashes 1, many 1
rows_journal damage: torn 4, flipped 4
rows_journal format: write 3, read 42-1
rows_journal replaced: replaced 3-3
rows_server adding: add 8
rows_server covering: prefix 28
rows_server cutting: cut 76-51
rows_server waiting: waiting 19-19
rows_transfers notifications: notify 1, copies 3-3, response 12, follow 1
rows_transfers transfers: wide 4
rows_tsig mutations: accepts 60
rows_tsig replies: reply 31
rows_tsig requests: verify 2
"""
IN_NAMED = "a case of `check/nameserver`"

# The rows that are rows of check/resolver.d now, by file and operation, as they were, and how many of them go by a clause.
RESOLVED = """
rows_net resolv_conf: conf 65, conf-bytes 1, attempts 12
rows_net schedules: schedule 6-2, update 8-1
rows_net update_text: update-text 32, update-text-all 6
rows_resolver addresses: addresses 17-9
rows_resolver attempts: lookup-names 12-1, lookup-names-with-hosts 10-2
rows_resolver config: group 4-4, config 12-12
rows_resolver hosts: hosts 36-1, hosts-bytes 8-3, insert 10-10
rows_resolver lookups: from-rdata 4-4, with-max-ttl 2-2, with-deadline 1-1, append 4-4, copy 1-1, extend 1-1, lookup-ip 2-2,
    message-of 1-1
rows_resolver names: names 52-1
rows_resolver requests: request 13-11, handle 10-10
rows_resolver resolver: resolver 64-10, set-hosts 5-5, requests 6-3, build 6-6
rows_resolver strategies: addresses 50
"""
IN_LOOKUPS = "a row of `check/resolver`, which runs `lookup`"

# The rows that are rows of check/c.d now.
STEPPED = """
rows_cache aliases: list 4
rows_cache clients: list 36
rows_net schedules: schedule 53
rows_net steps: steps 11
"""
IN_STEPS = "a row of `check/c`, which calls the library for C"

# The rows that a program of docs/libraries has now.
SHOWN = """
rows_resolver examples: example 5
"""
IN_EXAMPLES = "`my_resolver` of `docs/libraries`, which `check/examples` runs"
# The rows that gave each reader the inputs close to a good one, or random ones, as they were: `check/hostile` gives them to programs now.
GIVEN = """
hostile frames: around 15, random 2
hostile hosts: around 15, random 2
hostile messages: around 40, random 2
hostile names: around 40, random 2
hostile requests: around 40, random 3
hostile scripts: around 20, random 1
hostile zones: around 30, random 2
"""
IN_HOSTILE = "the inputs of `check/hostile`; some are stored, in `mutated*.rows`, `mutated.script` and `mutated*.case`"
# The calls that were refused memory, and those that were timed over a size, as they were: `plain` were 14 calls that take none.
REFUSED = """
refusals calls: from-text 1, parse 1, serve 1, serve-datagram 1, serve-stream 1, serve-update 1, apply 1, create 1,
    append 1, append-existing 1, compare-and-swap 1, delete-by-rdata 1, delete-rrset 1, delete-all 1, read-hosts 1,
    cache-first 1, cache-insert 1, cache-replace 1, cache-negative 1, cache-get 1, run-alias 1, run-swap 1, run-kept 1,
    run-large 1, plain 1-1
"""
IN_REFUSALS = "a run of `check/refusals`, or of the case `memory`: docs/MEMORY.md has which"
TIMED = """
stub_bench sizes: zone-read 1, serve-a 1, serve-cname 1, serve-chain 1, serve-nxdomain 1, answer-a 1, answer-referral 1,
    answer-wildcard 1, update-add 1, update-swap 1, cache-insert 1, cache-hit 1, cache-miss 1, hosts-read 1,
    hosts-read-addresses 1, hosts-read-names 1
"""
IN_BENCH = "`check/bench`, by a program that is used; those of caches by `lookup-hit` and `lookup-full`"
# The files of `rows` with such inputs.
MUTATED = ("mutated_names", "mutated_messages", "mutated_frames")


def tried_files(table):
    """The operations of each file that a table lists: how many rows, and how many of these go by a clause."""
    files = {}
    for line in " ".join(table.split("\n    ")).strip().split("\n"):
        name, operations = line.split(": ")
        files[tuple(name.split())] = [
            (word, *(int(it) for it in (count + "-0").split("-")[:2]))
            for word, count in (it.rsplit(" ", 1) for it in operations.split(", "))
        ]
    return files


# The rows that are elsewhere now.
MOVED = {
    place: tried_files(table)
    for place, table in (
        (IN_SCRIPTS, SCRIPTED),
        (IN_CASES, CASED),
        (IN_CHECKS, CHECKED),
        (IN_NAMED, NAMED),
        (IN_LOOKUPS, RESOLVED),
        (IN_STEPS, STEPPED),
        (IN_EXAMPLES, SHOWN),
        (IN_HOSTILE, GIVEN),
        (IN_REFUSALS, REFUSED),
        (IN_BENCH, TIMED),
    )
}


def subject_of(program):
    """The subject of `rows_layers` that a program of rows is by now."""
    return program.removeprefix("rows_")


def shown(program):
    """What the tables have for a program."""
    is_subject = program in LATER and data_of(program).is_dir()
    return f"`rows_layers`: {subject_of(program)}" if is_subject else f"`{program}`"


def data_of(program):
    """The folder with the rows of a subject."""
    return ROOT / "check" / "harness" / "rows_layers" / "data" / subject_of(program)


def rows_of(path):
    """How many rows a file has, by operation."""
    lines = path.read_text(encoding="utf-8").split("\n")
    return Counter(it.split(" ")[0] for it in lines if it and not it.startswith("#"))


def all_files():
    """Each file of rows: its program, its name, and of each operation the rows that stay, go, and have another place."""
    for (program, name), operations in tried_files(TRIED).items():
        yield program, name, [(word, count - gone, gone, 0) for word, count, gone in operations]
    for program in sorted(LATER):
        files = {path.stem: rows_of(path) for path in data_of(program).glob("*.rows")}
        for name in sorted({*files, *(it for table in MOVED.values() for one, it in table if one == program)}):
            counts, gone = files.get(name, Counter()), Counter()
            for word, count, without in (it for table in MOVED.values() for it in table.get((program, name), ())):
                counts[word] += count - without
                gone[word] += without
            yield program, name, [(word, 0, gone[word], counts[word]) for word in {**counts, **gone}]


def file_table(files):
    """A line for each file, and the number of rows that the files of `rows` have."""
    lines = ["| Program | File | Rows | Stay | Go by a clause | Have another place |", "|---|---|---|---|---|---|"]
    sums, now = [0, 0, 0], 0
    for program, name, operations in files:
        counts = [sum(it[column] for it in operations) for column in (1, 2, 3)]
        sums = [one + other for one, other in zip(sums, counts)]
        now += counts[0] if not (ROOT / "check" / "harness" / program).is_dir() else 0
        lines.append(f"| {shown(program)} | {name} | {sum(counts)} | " + " | ".join(str(it or "") for it in counts) + " |")
    lines.append(f"| all | | {sum(sums)} | " + " | ".join(str(it) for it in sums) + " |")
    return lines, now


def operation_table(files):
    """A line for each operation."""
    rows = {}
    for program, _, operations in files:
        for word, *counts in operations:
            old = rows.get((program, word), (0, 0, 0))
            rows[program, word] = tuple(one + other for one, other in zip(old, counts))
    lines = ["| Program | Operation | Rows | Place |", "|---|---|---|---|"]
    for (program, word), (stays, gone, elsewhere) in rows.items():
        parts = []
        if stays:
            new = NOW.get(program, {}).get(word, f"`{word}`")
            parts.append(f"{new} of `rows`" + (f": {stays}" if gone else ""))
        if gone:
            parts.append((f"{gone} go, " if stays or elsewhere else "") + f"by {CLAUSES[program][word]}")
        if elsewhere:
            parts.append(place_of(program, word, elsewhere))
        lines.append(f"| {shown(program)} | `{word}` | {stays + gone + elsewhere} | {'; '.join(parts)} |")
    return lines


def place_of(program, word, count):
    """Where the rows of an operation are, or are to be."""
    places, left = [], count
    for place, table in MOVED.items():
        operations = [it for (one, _), words in table.items() if one == program for it in words]
        moved = sum(it[1] - it[2] for it in operations if it[0] == word)
        if moved == count:
            return place
        if moved:
            places.append(f"{moved} in {place}")
            left -= moved
    return "; ".join([*places, *([LATER[program].get(word, LATER[program]["*"])] if left else [])])


# How many rows of a file no former program had: what is said of replies to signed requests.
ADDED = {"sentences": 12}


def main():
    files = list(all_files())
    by_file, now = file_table(files)
    tables = "\n".join(by_file) + "\n\n" + "\n".join(operation_table(files)) + "\n"
    if sys.argv[1:] != ["--check"]:
        print(tables, end="")
        return 0
    files = (ROOT / "check" / "harness" / "rows" / "data").glob("*.rows")
    # The rows of failing.rows show that a row can fail, and those of the others are made by check/hostile.
    counts = [sum(rows_of(it).values()) for it in files if it.stem not in ("failing", *MUTATED)]
    wanted = now + sum(ADDED.values())
    if sum(counts) != wanted:
        print(f"rows.py: {sum(counts)} rows in rows, and {wanted} by the table")
        return 1
    return 0


if __name__ == "__main__":
    sys.exit(main())
