"""A server that is started, asked and killed."""
import os
import signal
import socket
import subprocess

from messages import answers_of, code_of, query, update

ZONE = """$ORIGIN example.
@ 60 IN SOA ns hostmaster 1 3600 600 86400 60
@ 60 IN NS ns
ns 60 IN A 192.0.2.1
"""


class Refused(Exception):
    """The server did not start."""


class Server:
    """A server at a free port of the loopback interface."""

    def __init__(self, program, folder, *options, journal=True, prefix=()):
        words = [str(program), str(folder / "zone"), "--listen", "127.0.0.1:0", *options]
        if journal:
            words += ["--journal", str(folder / "journal")]
        self.folder = folder
        self.process = subprocess.Popen(
            [*prefix, *words], stdout=subprocess.PIPE, stderr=subprocess.PIPE, stdin=subprocess.DEVNULL
        )
        line = self.process.stdout.readline().decode()
        if not line.startswith("listening on "):
            self.process.wait()
            raise Refused(self.process.stderr.read().decode())
        self.port = int(line.rsplit(":", 1)[1])
        self.socket = socket.socket(socket.AF_INET, socket.SOCK_DGRAM)
        self.socket.settimeout(5)
        self.socket.connect(("127.0.0.1", self.port))

    def another_socket(self):
        """A socket of its own, for another thread."""
        other = socket.socket(socket.AF_INET, socket.SOCK_DGRAM)
        other.settimeout(10)
        other.connect(("127.0.0.1", self.port))
        return other

    def ask(self, message):
        """The reply to a message, or None if the server is gone."""
        try:
            self.socket.send(message)
            while True:
                reply = self.socket.recv(65535)
                if reply[:2] == message[:2]:
                    return reply
        except OSError:
            return None

    def add(self, number, name, address="192.0.2.7"):
        """Adds an address, and returns the response code, or None if the server is gone."""
        reply = self.ask(update(number & 0xFFFF, "example.", name, address))
        return None if reply is None else code_of(reply)

    def has(self, name):
        """Whether a name has an address."""
        reply = self.ask(query(1, name))
        return reply is not None and code_of(reply) == 0 and answers_of(reply) > 0

    def kill(self):
        """Kills the server, and waits for its end."""
        os.kill(self.process.pid, signal.SIGKILL)
        self.close()

    def close(self):
        """Waits for the end of the server."""
        self.process.wait()
        self.socket.close()
        self.process.stdout.close()
        self.process.stderr.close()

    def stop(self):
        """Ends the server."""
        self.process.terminate()
        self.close()
