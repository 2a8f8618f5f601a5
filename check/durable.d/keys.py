"""What signed updates may do."""
import os
import signal
import subprocess
import time
import tempfile
from contextlib import contextmanager
from pathlib import Path

from debian import PYTHON, install
from messages import code_of, update
from servers import ZONE, Server
from signing import ALGORITHMS, Key, signed

HERE = Path(__file__).resolve().parent
NOERROR, FORMERR, REFUSED, NOTAUTH = 0, 1, 5, 9


@contextmanager
def serving(given, keys, *grants, unsigned=False):
    """A server with keys and grants."""
    with tempfile.TemporaryDirectory() as name:
        folder = Path(name)
        (folder / "zone").write_text(ZONE)
        options = [] if unsigned else ["--no-updates"]
        for number, key in enumerate(keys):
            (folder / f"key{number}").write_text(key.text())
            options += ["--key", str(folder / f"key{number}")]
        for grant in grants:
            options += ["--grant", grant]
        server = Server(given.program, folder, *options)
        try:
            yield server, folder
        finally:
            server.kill()


def modes(given):
    """What is said of a key file that other users may read or write."""
    for mode, is_told in ((0o600, False), (0o640, False), (0o604, True), (0o602, True), (0o644, True), (0o601, False)):
        with tempfile.TemporaryDirectory() as name:
            folder = Path(name)
            (folder / "zone").write_text(ZONE)
            (folder / "key").write_text(Key("key.example.", next(iter(ALGORITHMS)), b"secret").text())
            (folder / "key").chmod(mode)
            server = Server(given.program, folder, "--key", str(folder / "key"))
            os.kill(server.process.pid, signal.SIGKILL)
            said = server.process.stderr.read()
            server.close()
        if (b"other users may read or write the key file" in said) != is_told:
            yield f"a key file of mode {mode:o}: {said!r}"
    print("  6 modes of key files")


def run_nsupdate(server, words, lines, program="nsupdate"):
    """Runs nsupdate or knsupdate, and returns whether it succeeded."""
    text = f"server 127.0.0.1 {server.port}\nzone example.\n{lines}\nsend\n"
    ended = subprocess.run([program, *words], input=text.encode(), capture_output=True)
    return ended.returncode == 0 and b"failed" not in ended.stderr + ended.stdout


def keys(given):
    """Each algorithm, by nsupdate, knsupdate and dnspython."""
    tried = 0
    missing = install(["nsupdate", "knsupdate", "dig", "dns", "certbot_dns_rfc2136"])
    if missing:
        print(f"  skipped, since they cannot be installed: {', '.join(missing)}")
    for number, algorithm in enumerate(ALGORITHMS):
        key = Key(f"key{number}.example.", algorithm, os.urandom(32))
        wrong = Key(key.name, algorithm, os.urandom(32))
        with serving(given, [key], f"{key.name} example.") as (server, folder):
            (folder / "wrong").write_text(wrong.text())
            ways = [
                ("a", ["-k", str(folder / "key0")], True, "nsupdate"),
                ("b", ["-y", key.word()], True, "nsupdate"),
                ("c", ["-k", str(folder / "wrong")], False, "nsupdate"),
                ("d", ["-y", wrong.word()], False, "nsupdate"),
                ("e", [], False, "nsupdate"),
                ("f", ["-v", "-y", key.word()], True, "nsupdate"),
                ("g", ["-y", key.word()], True, "knsupdate"),
                ("h", ["-y", wrong.word()], False, "knsupdate"),
            ]
            for name, words, taken, program in ways:
                done = run_nsupdate(server, words, f"update add {name}.example. 60 A 192.0.2.9", program)
                if done != taken or server.has(f"{name}.example.") != taken:
                    yield f"{program} {words} with {algorithm}: {done}"
                tried += 1
            yield from asked_by_dig(server, key, folder)
            if not missing:
                yield from by_libraries(server, key)
    with tempfile.TemporaryDirectory() as name:
        made = subprocess.run(["tsig-keygen", "-a", "hmac-sha256", "made.example."], capture_output=True)
        if made.returncode == 0:
            (Path(name) / "made").write_bytes(b"# a key\n" + made.stdout)
            (Path(name) / "zone").write_text(ZONE)
            server = Server(
                given.program, name_of(name), "--no-updates", "--key", f"{name}/made", "--grant", "made.example. example."
            )
            if not run_nsupdate(server, ["-k", f"{name}/made"], "update add made.example. 60 A 192.0.2.9"):
                yield "the key of tsig-keygen is not taken"
            server.kill()
            tried += 1
    print(f"  {tried} updates")


def asked_by_dig(server, key, folder):
    """Questions that dig signs: it verifies the replies."""
    for words in ([], ["+tcp"]):
        for path, wanted in ((folder / "key0", True), (folder / "wrong", False)):
            words_ = ["dig", "@127.0.0.1", "-p", str(server.port), "-k", str(path), "ns.example.", "A", "+tries=1", *words]
            said = subprocess.run(words_, capture_output=True).stdout.decode()
            verified = "TSIG PSEUDOSECTION" in said and "Couldn't verify" not in said and "could not be validated" not in said
            if (verified and "192.0.2.1" in said) != wanted:
                yield f"dig -k {path.name} {words} with {key.algorithm}: {said}"


def by_libraries(server, key):
    """Updates by dnspython and by certbot's plugin."""
    words = [PYTHON, str(HERE / "with_libraries.py"), str(server.port), key.name, key.secret_text(), key.algorithm]
    done = subprocess.run(words, capture_output=True, text=True, timeout=120)
    if done.returncode or "FAULT" in done.stdout:
        yield f"libraries with {key.algorithm}: {done.stdout}{done.stderr}"


def name_of(folder):
    """A folder as a path."""
    return Path(folder)


def grants(given):
    """What keys may change, and what they may not."""
    one, two = (Key(f"{name}.keys.", "hmac-sha256", os.urandom(32)) for name in ("one", "two"))
    allowed = [
        (one, "host.sub.example.", NOERROR),
        (one, "sub.example.", NOERROR),
        (one, "xsub.example.", REFUSED),
        (one, "other.example.", REFUSED),
        (one, "example.", REFUSED),
        (two, "host.sub.example.", REFUSED),
        (two, "text.example.", REFUSED),
        (None, "host.example.", REFUSED),
    ]
    with serving(given, [one, two], "one.keys. sub.example.", "two.keys. text.example. TXT") as (server, _):
        for number, (key, name, wanted) in enumerate(allowed):
            message = update(number, "example.", name, f"192.0.2.{10 + number}")
            code = code_of(server.ask(signed(key, message) if key else message))
            if code != wanted:
                yield f"{key.name if key else 'no key'} {name}: code {code}, not {wanted}"
        times = [(-301, NOTAUTH), (-299, NOERROR), (299, NOERROR), (301, NOTAUTH)]
        for number, (shift, wanted) in enumerate(times):
            name = f"t{number}.sub.example."
            message = signed(one, update(number, "example.", name, "192.0.2.5"), int(time.time()) + shift)
            code = code_of(server.ask(message))
            if code != wanted or server.has(name) != (wanted == NOERROR):
                yield f"a time {shift} seconds away: code {code}, not {wanted}"
    print(f"  {len(allowed) + len(times)} updates")
