# Captures of raw IPv4 packets, and of frames on two interfaces.
import struct, sys

def udp(port, payload):
    return struct.pack(">HHHH", port, 7946, 8 + len(payload), 0) + payload

def tcp(port, seq, flags, payload=b"", to=7946):
    return struct.pack(">HHIIBBHHH", port, to, seq, 0, 0x50, flags, 0xffff, 0, 0) + payload

def packet(source, protocol, rest, target="127.0.0.1"):
    addresses = bytes(map(int, (source + "." + target).split(".")))
    return struct.pack(">BBHHHBBH", 0x45, 0, 20 + len(rest), 0, 0, 64, protocol, 0) + addresses + rest

def pcap(name, packets):
    with open(name, "wb") as out:
        out.write(struct.pack("<IHHiIII", 0xa1b2c3d4, 2, 4, 0, 0, 262144, 101))
        for micros, data in packets:
            out.write(struct.pack("<IIII", 1795752000 + micros // 10**6, micros % 10**6, len(data), len(data)) + data)

def block(kind, body):
    total = struct.pack("<I", 12 + len(body))
    return struct.pack("<I", kind) + total + body + total

def on_two(name, of):
    """The frames of a pcap file, each on two interfaces of a pcapng file. Prints how many have a payload."""
    data, at, paid = open(of, "rb").read(), 24, 0
    link = struct.unpack_from("<I", data, 20)[0]
    with open(name, "wb") as out:
        out.write(block(0x0a0d0d0a, struct.pack("<IHHq", 0x1a2b3c4d, 1, 0, -1)))
        out.write(block(1, struct.pack("<HHI", link, 0, 0)) * 2)
        while at < len(data):
            seconds, micros, length, whole = struct.unpack_from("<IIII", data, at)
            frame = data[at + 16:at + 16 + length]
            time = seconds * 10**6 + micros
            for number in (0, 1):
                head = struct.pack("<IIIII", number, time >> 32, time & 0xffffffff, length, whole)
                out.write(block(6, head + frame + bytes(-length % 4)))
            ip = frame[14:]
            behind = ip[(ip[0] & 15) * 4:struct.unpack_from(">H", ip, 2)[0]]
            skip = 8 if ip[9] == 17 else (behind[12] >> 4) * 4
            paid += frame[12:14] == b"\x08\0" and ip[9] in (6, 17) and len(behind) > skip
            at += 16 + length
    print(paid)
