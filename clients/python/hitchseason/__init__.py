"""A client of the query server for analysts: Python 3 and its standard library. docs/client.md has its use.

    from hitchseason import connect
    labour = connect("mine", "mia", "labour")
    labour.count("persons", "p.age <= 30", eps=0.5)
"""
from .client import Client, connect
from .faults import BadCall, Cut, Failed, Fault, OverShare, Refused, Unanswered

__all__ = ["BadCall", "Client", "Cut", "Failed", "Fault", "OverShare", "Refused", "Unanswered", "connect"]
