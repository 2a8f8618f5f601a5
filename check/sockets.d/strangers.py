"""What other programs send to the sockets of `stub --udp` while it runs: their questions are answered, and its own are too.

A run has a pipe for its standard output that is full, so that it waits where it prints its first line. Its sockets are open then, and
nothing has been sent. It goes on as soon as the pipe is read.
"""
import os
import socket
import subprocess
import threading

SOA = "t. 60 IN SOA ns.t. h.t. 1 3600 600 86400 30\n"
# A name with an address, and one with forty, whose reply does not fit into a datagram of 512 bytes.
ZONE = SOA + "a.t. 60 IN A 10.0.0.1\n" + "".join(f"b.t. 60 IN A 10.0.1.{n}\n" for n in range(40))
FIRST = "0 clearall\n"
# The question a.t. A with the id 1 and RD (RFC 1035 section 4.1), its reply, and one with another address, which is no server's.
QUESTION = bytes.fromhex("000101000001000000000000016101740000010001")
REPLY = bytes.fromhex("000185000001000100000000016101740000010001c00c000100010000003c00040a000001")
FORGERY = REPLY[:-4] + bytes([10, 9, 9, 9])
# The longest datagram over IPv4. Its flags say that it is a response, so it has no reply.
LONGEST = b"\xff" * 65507
# More than the queues of sockets have room for.
MANY = 100000
# How long a run may take.
SECONDS = 60


def play(program, folder, script, *options):
    """A run in memory: its status, standard output and standard error."""
    done = subprocess.run(words(program, folder, script, *options), capture_output=True, timeout=SECONDS)
    return done.returncode, done.stdout, done.stderr


def words(program, folder, script, *options):
    """The command of a run over the zone with a script."""
    for name, text in (("zone", ZONE), ("script", script)):
        with open(f"{folder}/{name}", "w", encoding="ascii") as file:
            file.write(text)
    return [program, "--zone", f"{folder}/zone", "--script", f"{folder}/script", "--limit", "512", "--trace", *options]


def full_pipe():
    """A pipe that has no room, and what is in it."""
    reader, writer = os.pipe()
    os.set_blocking(writer, False)
    count = 0
    try:
        while True:
            count += os.write(writer, bytes(4096))
    except BlockingIOError:
        os.set_blocking(writer, True)
    return reader, writer, count


class Paused:
    """A run over sockets that waits where it prints its first line."""

    def __init__(self, program, folder, script):
        self.reader, writer, self.filling = full_pipe()
        command = words(program, folder, FIRST + script, "--udp")
        self.process = subprocess.Popen(command, stdin=subprocess.DEVNULL, stdout=writer, stderr=subprocess.PIPE)
        os.close(writer)
        self.timer = threading.Timer(SECONDS, self.process.kill)
        self.timer.daemon = True
        self.timer.start()
        # The trace has an event before the result is printed.
        self.trace = self.process.stderr.readline()
        if self.trace != FIRST.encode():
            raise OSError(f"stub does not run: {self.trace!r}")
        # The socket that asks has a peer, and that of the server has none.
        (asker,) = [it for it in self.rows("udp") if port_of(it[2])]
        (server,) = [it for it in self.rows("udp") if not port_of(it[2])]
        (listener,) = self.rows("tcp")
        self.asker, self.server, self.listener = [("127.0.0.1", port_of(it[1])) for it in (asker, server, listener)]

    def rows(self, kind):
        """The rows of a table of the system that are those of the run's sockets."""
        folder = f"/proc/{self.process.pid}"
        links = [os.readlink(f"{folder}/fd/{it}") for it in os.listdir(f"{folder}/fd")]
        with open(f"{folder}/net/{kind}", encoding="ascii") as file:
            rows = [line.split() for line in file.read().splitlines()[1:]]
        return [it for it in rows if f"socket:[{it[9]}]" in links]

    def dropped(self):
        """How many datagrams the system has dropped because the socket of the server had no room."""
        return sum(int(it[-1]) for it in self.rows("udp") if port_of(it[1]) == self.server[1])

    def rest(self):
        """Lets the run end: its status, standard output and standard error."""
        with os.fdopen(self.reader, "rb") as file:
            output = file.read()[self.filling :]
        trace = self.trace + self.process.stderr.read()
        self.process.stderr.close()
        status = self.process.wait()
        self.timer.cancel()
        return status, output, trace


def port_of(address):
    """The port of an address in a table of the system."""
    return int(address.rpartition(":")[2], 16)


def stranger():
    """A socket for datagrams that belongs to no run."""
    other = socket.socket(socket.AF_INET, socket.SOCK_DGRAM)
    other.bind(("127.0.0.1", 0))
    other.settimeout(1)
    return other


def questions(program, folder):
    """a hundred questions of a stranger have their replies, and the question behind them has its own"""
    script = "0 lookup a.t. A\n"
    run = Paused(program, folder, script)
    with stranger() as other:
        for _ in range(100):
            other.sendto(QUESTION, run.server)
        is_same = run.rest() == play(program, folder, FIRST + script)
        return is_same and all(other.recvfrom(512) == (REPLY, run.server) for _ in range(100))


def forgery(program, folder):
    """a reply of a stranger is not received, though it would be taken from the server (RFC 5452 section 9.1)"""
    script = "0 lookup a.t. A\n"
    run = Paused(program, folder, script)
    with stranger() as other:
        other.sendto(FORGERY, run.asker)
        is_same = run.rest() == play(program, folder, FIRST + script)
    _, output, _ = play(program, folder, f"reply a.t. A {FORGERY.hex()}\n{script}")
    return is_same and b" 10.9.9.9\n" in output


def fill(run):
    """Sends datagrams without a reply to the server, until there is no room for one of the least size: large ones take less time."""
    with stranger() as other:
        for size in (len(LONGEST), 4096, 32):
            dropped = run.dropped()
            for _ in range(MANY):
                other.sendto(LONGEST[:size], run.server)
                if run.dropped() > dropped:
                    break


def flood(program, folder):
    """a question that the full queue of the server loses has no reply, and the one after it is answered"""
    run = Paused(program, folder, "0 lookup a.t. A\n1 lookup a.t. A\n")
    fill(run)
    status, output, trace = run.rest()
    wanted = "0 clearall\n0 lookup a.t. A: fault F3\n1 lookup a.t. A: 1 records\n  a.t. 60 IN A 10.0.0.1\n"
    return (status, output.decode()) == (0, wanted) and b"  <- receive 1: nothing\n" in trace


def connections(program, folder):
    """connections of strangers that wait are closed, and a truncated reply is asked for again over a stream"""
    return is_asked_behind(program, folder, 2)


def full_queue(program, folder):
    """so it is where the queue of connections is full"""
    return is_asked_behind(program, folder, MANY)


def is_asked_behind(program, folder, most):
    """Whether a stream is made while connections wait, as many as are wanted or find room, and whether these are closed."""
    script = "0 lookup b.t. A\n"
    run = Paused(program, folder, script)
    others = []
    try:
        while len(others) < most:
            others.append(socket.create_connection(run.listener, timeout=1))
    except TimeoutError:
        # The queue is full.
        pass
    is_same = run.rest() == play(program, folder, FIRST + script)
    is_closed = bool(others) and all(it.recv(1) == b"" for it in others)
    for it in others:
        it.close()
    return is_same and is_closed


SCENARIOS = (questions, forgery, flood, connections, full_queue)
