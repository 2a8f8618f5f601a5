"""Fixtures for pytest that start name servers.

In `conftest.py` or in a file of tests:

    from pytest_nameserver import nameserver

    def test_address(nameserver):
        server = nameserver(ZONE)
        assert look_up("www.example.com", server.address, server.port) == ["10.0.0.1"]

Each call starts a server with the arguments of `NameServer`. All of them end with the test, or with the session if they are started by
`nameserver_of_session`:

    import pytest
    from pytest_nameserver import nameserver_of_session

    @pytest.fixture(scope="session")
    def server(nameserver_of_session):
        return nameserver_of_session(ZONE)

The report of a test that fails has the requests that these servers had during the test, and what they printed on standard error.
"""
import contextlib

import pytest

from nameserver import NameServer

# How many requests of a server a report has at most: the last ones.
MOST = 50
PLUGIN = "nameserver-reports"


@pytest.fixture
def nameserver(request):
    """A function that starts a name server."""
    with started_servers(request.config) as start:
        yield start


@pytest.fixture(scope="session")
def nameserver_of_session(request):
    """A function that starts a name server for all tests of the session."""
    with started_servers(request.config) as start:
        yield start


@contextlib.contextmanager
def started_servers(config):
    """A function that starts servers, which are reported and then end."""
    # The hooks are here and not in a plugin of the project, so that it is enough to import a fixture.
    if not config.pluginmanager.has_plugin(PLUGIN):
        config.pluginmanager.register(Reports(), PLUGIN)
    reports = config.pluginmanager.get_plugin(PLUGIN)
    with contextlib.ExitStack() as started:

        def start(*given, **named):
            server = started.enter_context(NameServer(*given, **named))
            reports.seen[server] = 0
            started.callback(reports.seen.pop, server, None)
            return server

        yield start


class Reports:
    """What servers wrote, for the reports of the tests that fail."""

    def __init__(self):
        # The servers that run, each with the number of its requests before the test.
        self.seen = {}

    @pytest.hookimpl(tryfirst=True)
    def pytest_runtest_setup(self):
        """Begins a test."""
        for server in self.seen:
            self.seen[server] = len(requests_of(server))

    @pytest.hookimpl(hookwrapper=True)
    def pytest_runtest_makereport(self):
        """Adds what the servers wrote to the report of a phase of a test that failed."""
        report = (yield).get_result()
        if report.failed:
            for server, seen in self.seen.items():
                report.sections.append((f"nameserver at {server.address} port {server.port}", written_by(server, seen)))


def requests_of(server):
    """The requests in the log of a server, if it has one."""
    return server.requests() if server.has_log else []


def written_by(server, seen):
    """The requests of a server but for the first ones, and what it printed on standard error."""
    requests = requests_of(server)[seen:]
    lines = [str(it) for it in requests[-MOST:]] or ["no requests" if server.has_log else "no log"]
    if len(requests) > MOST:
        lines.insert(0, f"{len(requests) - MOST} requests before these")
    return "\n".join([*lines, "standard error:", *server.standard_error().splitlines()])
