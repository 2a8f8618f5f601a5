"""`clients/python/nameserver.py` beside dig, nsupdate and dnspython."""
import os
import shutil
import subprocess
import sys
import time

import dns.query
import dns.zone
import pytest

import nameserver as client
from nameserver import NameServer, NameServerError, UpdateError
from pytest_nameserver import nameserver  # noqa: F401

ZONE = """
$ORIGIN example.com.
$TTL 60
@     SOA   ns hostmaster ( 1 1h 10m 1d 30 )
@     NS    ns
ns    A     10.0.0.53
www   A     10.0.0.1
"""
TYPES = """
a     A      10.0.0.1
a     A      10.0.0.2
a     AAAA   2001:db8::1
mx    MX     10 mail.example.net.
srv   SRV    1 2 5060 sip
txt   TXT    "a b" "\\"" c
caa   CAA    0 issue "ca.example.net"
tlsa  TLSA   3 1 1 0123456789abcdef0123456789abcdef0123456789abcdef0123456789abcdef
loc   LOC    52 22 23 N 4 53 32 E 0m
"""
KEY = 'key "me." {\n\talgorithm hmac-sha256;\n\tsecret "MDEyMzQ1Njc4OWFiY2RlZg==";\n};\n'
# How long a test waits for what does not come, in seconds.
SHORT = 0.3


def dig(server, *words):
    """The lines that dig prints."""
    command = ["dig", f"@{server.address}", "-p", str(server.port), "+short", "+tries=1", "+time=5", *words]
    return subprocess.run(command, check=True, capture_output=True, text=True).stdout.splitlines()


def needs_ipv6(address):
    """Skips a test of an address that the machine does not have."""
    if address == "::1" and not os.path.exists("/proc/net/if_inet6"):
        pytest.skip("the machine has no IPv6")


def start_nsupdate(server, *lines, pause=0):
    """Starts nsupdate, which sends an update after some seconds."""
    script = "\n".join([f"server {server.address} {server.port}", *lines, "send", ""])
    return subprocess.Popen(["sh", "-c", 'sleep "$0" && printf %s "$1" | nsupdate', str(pause), script])


# Updates


def test_update(nameserver):
    """dig finds what an update made, in the words of nsupdate and of lookup, and several changes are one update."""
    server = nameserver(ZONE)
    assert server.update("update add mail.example.com 60 MX 10 www.example.com") == "NOERROR"
    server.update("swap www 60 A 10.0.0.1 -> 10.0.0.2\nappend ftp 60 CNAME www\ndelete-set ns A")
    assert dig(server, "mail.example.com", "MX") == ["10 www.example.com."]
    assert dig(server, "ftp.example.com", "A") == ["www.example.com.", "10.0.0.2"]
    assert dig(server, "ns.example.com", "A") == []
    assert [it.opcode for it in server.wait_for_requests(5)] == [5, 5, 0, 0, 0]


@pytest.mark.parametrize(
    "text, code_name",
    [
        ("swap www 60 A 10.0.0.9 -> 10.0.0.2", "NXRRSET"),
        ("create www 60 A 10.0.0.2", "YXRRSET"),
        ("prereq nxdomain www.example.com\nupdate add www.example.com 60 A 10.0.0.2", "YXDOMAIN"),
        ("prereq yxdomain no.example.com\nupdate add www.example.com 60 A 10.0.0.2", "NXDOMAIN"),
        ("update add www.example.net 60 A 10.0.0.2", "NOTZONE"),
        ("zone example.net\nupdate add www.example.net 60 A 10.0.0.2", "NOTAUTH"),
    ],
)
def test_refused_update(nameserver, text, code_name):
    """The error has the code of the reply and the update, and the zone is what it was."""
    server = nameserver(ZONE)
    with pytest.raises(UpdateError, match=f"answered {code_name} to the update ") as caught:
        server.update(text)
    assert (caught.value.code_name, caught.value.signature_error) == (code_name, None)
    assert repr(text) in str(caught.value)
    assert dig(server, "www.example.com", "A") == ["10.0.0.1"]


def test_update_that_may_not_be_made(nameserver):
    server = nameserver(ZONE, options=["--no-updates"])
    with pytest.raises(UpdateError, match="REFUSED"):
        server.update("delete-name www")


def test_update_without_reply(nameserver):
    """A fault for updates is no reply, and not an update that was refused."""
    server = nameserver(ZONE, faults="example.com. SOA drop times 1")
    with pytest.raises(NameServerError, match="no reply to the update 'delete-name www'") as caught:
        server.update("delete-name www", seconds=SHORT)
    assert not isinstance(caught.value, UpdateError)
    server.update("delete-name www")
    assert server.unused_faults() == []


def test_half_a_reply(nameserver):
    """The connection ends within the reply to an update, which was made."""
    server = nameserver(ZONE, faults="example.com. SOA close 10 times 1")
    with pytest.raises(NameServerError, match="no reply to the update .*: the connection ended before the reply"):
        server.update("delete-name www")
    assert server.records("www.example.com", "A") == []


def test_late_update(nameserver, tmp_path, monkeypatch):
    """The server's clock and that of the signer are apart."""
    file = tmp_path / "me.key"
    file.write_text(KEY)
    file.chmod(0o600)
    server = nameserver(ZONE, options=["--key", file, "--grant", "me. example.com."])
    now = time.time()
    monkeypatch.setattr(time, "time", lambda: now - 1000)
    with pytest.raises(UpdateError, match="NOTAUTH \\(BADTIME\\)"):
        server.update("delete-name www", key=file)
    assert server.records("www.example.com", "A") == ["10.0.0.1"]


def test_signed_update(nameserver, tmp_path):
    """A key may update what its grant says, as by nsupdate, and others may not."""
    file = tmp_path / "me.key"
    file.write_text(KEY)
    file.chmod(0o600)
    server = nameserver(ZONE, options=["--no-updates", "--key", file, "--grant", "me. example.com. A TXT"])
    server.update("append a 60 A 10.0.0.2", key=KEY)
    server.update("append b 60 A 10.0.0.3", key=file)
    subprocess.run(
        ["nsupdate", "-k", file],
        input=f"server {server.address} {server.port}\nupdate add c.example.com. 60 A 10.0.0.4\nsend\n",
        check=True,
        text=True,
    )
    assert [dig(server, f"{it}.example.com", "A") for it in "abc"] == [["10.0.0.2"], ["10.0.0.3"], ["10.0.0.4"]]
    wrong = {
        "BADSIG": KEY.replace("MDEy", "MDEx"),
        "BADKEY": KEY.replace('"me."', '"you."'),
    }
    for signature_error, key in wrong.items():
        with pytest.raises(UpdateError, match=f"NOTAUTH \\({signature_error}\\)") as caught:
            server.update("append d 60 A 10.0.0.5", key=key)
        assert (caught.value.code_name, caught.value.signature_error) == ("NOTAUTH", signature_error)
    for key, text in ((None, "append d 60 A 10.0.0.5"), (KEY, "append d 60 AAAA ::1")):
        with pytest.raises(UpdateError, match="REFUSED"):
            server.update(text, key=key)
    with pytest.raises(UpdateError, match="NXRRSET"):
        server.update("swap a 60 A 10.0.0.7 -> 10.0.0.8", key=KEY)
    assert dig(server, "d.example.com", "A") == []


# Records


def test_records(nameserver):
    """The records of each type are those that dnspython transfers."""
    server = nameserver(ZONE + TYPES)
    theirs = dns.zone.from_xfr(dns.query.xfr(server.address, "example.com.", port=server.port, relativize=False), relativize=False)
    for line in (*ZONE.splitlines(), *TYPES.splitlines()):
        name, kind = [*line.split(), "", ""][:2]
        if name[:1] in ("", "$", "@"):
            continue
        wanted = [it.to_text() for it in theirs.get_rdataset(f"{name}.example.com.", kind)]
        found = server.records(f"{name}.example.com", kind if kind != "LOC" else "TYPE29")
        if kind == "LOC":
            generic = theirs.get_rdataset("loc.example.com.", "LOC")[0].to_generic()
            wanted = [generic.to_text()]
        assert [it.lower() for it in found] == sorted(it.lower() for it in wanted)
    assert server.records("www.example.com", "TYPE1") == server.records("www.example.com", "a") == ["10.0.0.1"]
    assert server.records("nothing.example.com", "A") == []
    with pytest.raises(NameServerError, match="no zone of the server has www.example.net"):
        server.records("www.example.net", "A")


def test_records_of_a_large_zone(nameserver):
    """A transfer of several messages."""
    names = [f"{'x' * 60}.h{number}" for number in range(2000)]
    server = nameserver(ZONE + "".join(f"{name} AAAA 2001:db8::{at:x}\n" for at, name in enumerate(names, 1)))
    for at in (1, 1000, 2000):
        assert server.records(f"{names[at - 1]}.example.com", "AAAA") == [f"2001:db8::{at:x}"]


def test_records_of_the_closest_zone(nameserver):
    server = nameserver([ZONE, ZONE.replace("example.com", "sub.example.com").replace("10.0.0.1", "10.0.0.2")])
    assert server.records("www.example.com", "A") == ["10.0.0.1"]
    assert server.records("WWW.Sub.Example.com.", "A") == ["10.0.0.2"]
    server.update("append a 60 A 10.0.0.3", zone="sub.example.com.")
    assert dig(server, "a.sub.example.com", "A") == ["10.0.0.3"]


def test_records_are_no_requests_of_the_test(nameserver):
    """No fault is made on them, and the log has them neither before nor after the end of the server."""
    with NameServer(ZONE, faults="* * drop times 1") as server:
        assert server.records("www.example.com", "A") == ["10.0.0.1"]
        assert server.requests() == []
        assert server.unused_faults() == [(1, "* * drop times 1")]
        dns.zone.from_xfr(dns.query.xfr(server.address, "example.com.", port=server.port))
        assert [it.type for it in server.wait_for_requests(1)] == ["AXFR"]
    assert [it.type for it in server.requests()] == ["AXFR"]
    assert server.unused_faults() == [(1, "* * drop times 1")]


def test_refused_transfer(nameserver):
    server = nameserver(ZONE, options=["--plain"])
    with pytest.raises(NameServerError, match="answered NOTIMP to a transfer, which `records` needs"):
        server.records("www.example.com", "A")


def test_wait_for_records(nameserver):
    """Another program changes the zone while a test waits."""
    server = nameserver(ZONE)
    assert server.wait_for_records("www.example.com", "A") == ["10.0.0.1"]
    changes = ["update add www.example.com. 60 A 10.0.0.2", "update add new.example.com. 60 MX 10 Mail.example.com."]
    with start_nsupdate(server, *changes, pause=SHORT) as started:
        assert server.wait_for_records("www.example.com", "A", ["10.0.0.2", "10.0.0.1"]) == ["10.0.0.1", "10.0.0.2"]
        assert server.wait_for_records("new.example.com", "TYPE15", "10 mail.EXAMPLE.com") == ["10 Mail.example.com."]
        assert started.wait(10) == 0
    with start_nsupdate(server, "update delete www.example.com.", pause=SHORT):
        assert server.wait_for_records("www.example.com", "A", []) == []


@pytest.mark.parametrize(
    "data, told",
    [
        (["10.0.0.2"], r"wanted \['10.0.0.2'\] within 0.3 seconds, and there were \['10.0.0.1'\] at last"),
        ([], r"wanted none within 0.3 seconds, and there were \['10.0.0.1'\] at last"),
        (["10.0.0.1", "10.0.0.2"], r"wanted .*, and there were \['10.0.0.1'\] at last"),
    ],
)
def test_records_that_do_not_come(nameserver, data, told):
    """The error says what was there at last."""
    server, begin = nameserver(ZONE), time.monotonic()
    with pytest.raises(NameServerError, match=f"www.example.com A: {told}"):
        server.wait_for_records("www.example.com", "A", data, seconds=SHORT)
    assert time.monotonic() - begin >= SHORT
    with pytest.raises(NameServerError, match="wanted some within 0.3 seconds, and there were none at last"):
        server.wait_for_records("nothing.example.com", "A", seconds=SHORT)


def test_server_that_ends(nameserver):
    """Nobody waits for a server that has ended by itself."""
    server, begin = nameserver(ZONE), time.monotonic()
    server.process.kill()
    server.process.wait()
    with pytest.raises(NameServerError, match="0 requests of 1"):
        server.wait_for_requests(1, seconds=60)
    with pytest.raises(NameServerError, match="no request with"):
        server.wait_for(name="www.example.com.", seconds=60)
    with pytest.raises(NameServerError, match="no reply to a transfer: .*refused"):
        server.wait_for_records("www.example.com", "A", [], seconds=60)
    assert time.monotonic() - begin < 10


# The log


def test_log_of_a_stopped_server():
    """What a server logged is there after its end, until it is started again."""
    with NameServer(ZONE, faults="www.example.com. A code SERVFAIL\nwww.example.com. AAAA drop") as server:
        dig(server, "www.example.com", "A")
        server.wait_for_requests(1)
    assert [(it.name, it.code_name, it.fault) for it in server.requests()] == [("www.example.com.", "SERVFAIL", 1)]
    assert server.unused_faults() == [(2, "www.example.com. AAAA drop")]
    assert "zone example.com., 4 records" in server.standard_error()
    with server:
        assert server.requests() == []


def test_no_log(nameserver):
    """Without a log, nothing is said of requests and faults."""
    server = nameserver(ZONE, log=False, faults="www.example.com. A drop")
    for call in (server.requests, server.unused_faults, lambda: server.wait_for_requests(1), lambda: server.wait_for(type="A")):
        with pytest.raises(NameServerError, match="the server keeps no log"):
            call()


# Addresses


@pytest.mark.parametrize(
    "address, peer",
    [
        ("127.0.0.1", "127.0.0.1:"),
        ("::1", "[::1]:"),
        ("0.0.0.0", "127.0.0.1:"),
        ("::", "127.0.0.1:"),
    ],
)
def test_address(nameserver, address, peer):
    """The address to ask is one of this machine, and a restarted server listens at the same ones."""
    needs_ipv6(address)
    server = nameserver(ZONE, address=address)
    addresses = server.addresses
    for last in (1, 2):
        for host, port in addresses:
            server.address, server.port = host, port
            assert dig(server, "www.example.com", "A") == [f"10.0.0.{last}"]
        server.address, server.port = addresses[0]
        assert server.wait_for_requests(len(addresses))[0].peer.startswith(peer)
        assert server.records("www.example.com", "A") == [f"10.0.0.{last}"]
        assert len(server.requests()) == len(addresses)
        server.restart(zone=ZONE.replace("10.0.0.1", "10.0.0.2"))
        assert server.addresses == addresses


def test_all_addresses():
    """They are those that the kernel tells `ip` of, at one port."""
    program = shutil.which("ip", path=os.environ["PATH"] + ":/usr/sbin:/sbin") or pytest.skip("ip is not there")
    for address, family in (("0.0.0.0", ["-4"]), ("::", [])):
        command = [program, "-o", *family, "address"]
        lines = subprocess.run(command, check=True, capture_output=True, text=True).stdout
        words = [line.split() for line in lines.splitlines()]
        wanted = {it[3].partition("/")[0] for it in words if it[2].startswith("inet") and "link" not in it}
        with NameServer(ZONE, address=address) as server:
            assert {host for host, _ in server.addresses} == wanted
            assert {port for _, port in server.addresses} == {server.port}


def test_further_addresses(nameserver):
    needs_ipv6("::1")
    server = nameserver(ZONE, options=["--listen=[::1]:0", "--listen", "127.0.0.2:0"])
    assert [host for host, _ in server.addresses] == ["127.0.0.1", "::1", "127.0.0.2"]
    for host, port in server.addresses:
        server.address, server.port = host, port
        assert dig(server, "www.example.com", "A") == ["10.0.0.1"]


# Starts and ends


def test_no_warnings():
    """No file and no process is left open, by a server that is stopped, restarted or not started."""
    program = f"""\
import gc
from nameserver import NameServer, NameServerError
zone = {ZONE!r}
with NameServer(zone) as server:
    server.records("www.example.com", "A")
    server.update("delete-name www")
    server.restart(zone=zone)
for faulty in (NameServer("x"), NameServer(zone, options=["--limit", "x"]), NameServer(zone, address="192.0.2.1")):
    try:
        with faulty:
            raise SystemExit("it started")
    except NameServerError:
        pass
del server, faulty
gc.collect()
"""
    done = subprocess.run([sys.executable, "-W", "error", "-X", "dev", "-c", program], capture_output=True, text=True)
    assert (done.returncode, done.stderr) == (0, "")


def test_front_is_asked_once(tmp_path, monkeypatch):
    """The front of a checkout compares its sources with its build once in a process."""
    scripts = tmp_path / "scripts"
    scripts.mkdir()
    (scripts / "run_program.py").write_text("")
    (scripts / "find_build.py").write_text(
        "import os, sys\nopen(os.path.join(os.path.dirname(__file__), 'asked'), 'a').write('x')\nprint(os.environ['BUILD'])\n"
    )
    front = tmp_path / "nameserver"
    front.write_text("#!/bin/sh\nexit 1\n")
    front.chmod(0o755)
    monkeypatch.setenv("BUILD", client.find_program()[0])
    for _ in range(3):
        with NameServer(ZONE, program=str(front)) as server:
            assert dig(server, "www.example.com", "A") == ["10.0.0.1"]
    assert (scripts / "asked").read_text() == "x"


# Reports of pytest

FAILING = """\
import pytest
from pytest_nameserver import nameserver, nameserver_of_session
from test_server import ZONE, dig

@pytest.fixture(scope="session")
def shared(nameserver_of_session):
    return nameserver_of_session(ZONE)

def test_that_passes(shared):
    dig(shared, "first.example.com", "A")
    shared.wait_for_requests(1)

def test_that_fails(nameserver, shared):
    server = nameserver(ZONE, faults="www.example.com. A code SERVFAIL")
    dig(server, "www.example.com", "A")
    dig(shared, "second.example.com", "TXT")
    server.wait_for_requests(1)
    shared.wait_for_requests(2)
    assert False

def test_without_requests(shared):
    assert False

def test_without_log(nameserver):
    nameserver(ZONE, log=False)
    assert False
"""


def test_reports(tmp_path):
    """The report of a test that fails has what its servers were asked during the test, and those of others have nothing."""
    file = tmp_path / "test_failing.py"
    file.write_text(FAILING)
    environment = {**os.environ, "PYTHONPATH": os.pathsep.join([*filter(None, sys.path), os.path.dirname(__file__)])}
    command = [sys.executable, "-W", "error", "-m", "pytest", "-W", "error", "-p", "no:cacheprovider", "-q", file]
    done = subprocess.run(command, capture_output=True, text=True, env=environment)
    assert done.stdout.splitlines()[-1].startswith("3 failed, 1 passed"), done.stdout + done.stderr
    failed = done.stdout.split("test_without_requests")[0]
    assert ": www.example.com. A: SERVFAIL, 0 answers, by line 1 of the faults" in failed
    assert ": second.example.com. TXT: NXDOMAIN, 0 answers" in failed
    assert "first.example.com" not in done.stdout
    without = done.stdout.partition("test_without_requests")[2]
    assert (without.count("\nno requests\n"), without.count("\nno log\n")) == (2, 1)
    assert without.count("\nstandard error:\n") == without.count("zone example.com., 4 records") == 3
