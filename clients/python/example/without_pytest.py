"""Starts a name server without pytest, and asks it.

To run it: `NAMESERVER=.. PYTHONPATH=clients/python python3 clients/python/example/without_pytest.py`
"""
from nameserver import NameServer
from resolver import look_up

ZONE = """
$ORIGIN example.com.
$TTL 60
@    SOA ns hostmaster ( 1 1h 10m 1d 30 )
www  A   10.0.0.1
"""

with NameServer(ZONE, faults="www.example.com. A drop times 1") as server:
    addresses = look_up("www.example.com", server.address, server.port)
    first, second = server.wait_for_requests(2)

assert addresses == ["10.0.0.1"]
assert (first.fault, first.code) == (1, None), first
assert (second.fault, second.code_name, second.answers) == (None, "NOERROR", 1), second
print("www.example.com has the address 10.0.0.1, which the second of two questions was told")
