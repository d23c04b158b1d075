"""Writes one packet by scapy to standard output: one_packet.py STACK, headers from the bottom up, as IPv4/IPv6; four bytes follow them."""
import sys

from scapy.layers.inet import IP
from scapy.layers.inet6 import IPv6
from scapy.packet import Raw

inner = Raw(b"data")
for name in sys.argv[1].split("/"):
    inner = (IP(proto=253) if name == "IPv4" else IPv6(nh=253)) / inner if inner.name == "Raw" else (IP() if name == "IPv4" else IPv6()) / inner
sys.stdout.buffer.write(bytes(inner))
