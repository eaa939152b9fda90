"""Prints the members of a live cluster: members.py HOST:PORT [FILE with the keys in base64]"""
import base64
import socket
import sys

import swimtab

host, port = sys.argv[1].rsplit(":", 1)
lines = open(sys.argv[2]).read().split() if len(sys.argv) > 2 else []
with swimtab.Keyring(*map(base64.b64decode, lines)) as keys, \
        swimtab.Node.open("(members)", "0.0.0.0") as node:
    node.forget("(members)")
    with socket.create_connection((host, int(port)), timeout=10) as connection:
        connection.sendall(keys.seal_stream(node.offer()))
        reply = b"".join(iter(lambda: connection.recv(65536), b""))
    node.finish(keys.unwrap_stream(reply).data)
    for member in node:
        address = f"{member.address}:{member.port}" if member.address else "-"
        print(member.name, member.state, address)
