"""Scripts: events as typed values, their lines, comments, and what a line is expected to print.

The forms of the lines are those of docs/program.md. A line of a script is read into the event that it asks for, and an event
is spelled as its line; the one undoes the other.
"""

from dorydate.script.event import EVENTS, Event
from dorydate.script.file import EXPECTED, Entry, Script, octets_of
from dorydate.script.lines import IN_THE_NETWORK, RAW, WORLD, not_here, read_event, words_in
from dorydate.script.of_network import Abandon, Ask, Calm, Deliver, Drop, EndDown, EndUp, Forget, GiveUp, HostDown, HostUp, ImpDown, ImpUp, Out, Resend, Route, Take
from dorydate.script.of_programs import AskBack, Close, Contact, Echo, Grant, Interrupt, Listen, Offer, OpenReceive, OpenSend, Send, Server, Type, User
from dorydate.script.values import MOST_BITS, MOST_NUMBER, BadLine, Flow, Text, host_of, whole

__all__ = [
    "Abandon",
    "Ask",
    "AskBack",
    "BadLine",
    "Calm",
    "Close",
    "Contact",
    "Deliver",
    "Drop",
    "EVENTS",
    "EXPECTED",
    "Echo",
    "EndDown",
    "EndUp",
    "Entry",
    "Event",
    "Flow",
    "Forget",
    "GiveUp",
    "Grant",
    "HostDown",
    "HostUp",
    "IN_THE_NETWORK",
    "ImpDown",
    "ImpUp",
    "Interrupt",
    "Listen",
    "MOST_BITS",
    "MOST_NUMBER",
    "Offer",
    "OpenReceive",
    "OpenSend",
    "Out",
    "RAW",
    "Resend",
    "Route",
    "Script",
    "Send",
    "Server",
    "Take",
    "Text",
    "Type",
    "User",
    "WORLD",
    "host_of",
    "not_here",
    "octets_of",
    "read_event",
    "whole",
    "words_in",
]
