# Writes a capture of Ethernet anew, with other bytes in the user messages of its UDP packets:
#   python3 user_messages.py broken|random|none FROM TO SEED
# broken: each is no message of Serf any more; random: some of its bytes are others, or are missing, or come twice;
# none: it is empty. Lengths and checksums are right. It prints how many messages it wrote anew.
import random, struct, sys, zlib

how, source, target, seed = sys.argv[1:]
chance = random.Random(int(seed))
written = 0

def broken(message):
    """Other types than Serf's, maps that end early or late, no map at all, and bytes that stand for nothing."""
    kind = chance.randrange(5)
    if kind == 0:
        return bytes([chance.randrange(11, 128)]) + message[1:]
    if kind == 1:
        return message[:chance.randrange(1, len(message) - 1)]
    if kind == 2:
        return message + bytes([chance.randrange(256)])
    if kind == 3:
        return message[:1] + bytes([chance.choice(b"\x00\x7f\x90\xa0\xc0\xc2\xcb\xdc")]) + message[2:]
    return message[:1] + b"\xc1" + message[2:]

def changed(message):
    if how == "none":
        return b""
    if how == "broken":
        return broken(message)
    message = bytearray(message)
    for _ in range(chance.randrange(1, 4)):
        at = chance.randrange(len(message))
        kind = chance.randrange(4)
        if kind < 2:
            message[at] = chance.randrange(256)
        elif kind == 2 and len(message) > 1:
            del message[at:at + chance.randrange(1, 5)]
            message = message or bytearray(1)
        else:
            message[at:at] = message[at:at + chance.randrange(1, 30)]
    return bytes(message)

def part(message):
    """A user message, or a compound of parts, with other bytes; anything else as it is."""
    global written
    if message[:1] == b"\x08":
        written += 1
        return message[:1] + changed(message[1:])
    if message[:1] == b"\x07":
        lengths = struct.unpack_from(">%dH" % message[1], message, 2)
        parts, at = [], 2 + 2 * len(lengths)
        for length in lengths:
            parts.append(part(message[at:at + length]))
            at += length
        return message[:2] + struct.pack(">%dH" % len(parts), *map(len, parts)) + b"".join(parts)
    return message

def payload(data):
    if data[:1] == b"\x0c":
        data = part(data[5:])
        return b"\x0c" + struct.pack(">I", zlib.crc32(data)) + data
    return part(data)

def frame(data):
    if data[12:14] != b"\x08\0" or data[23] != 17:
        return data
    head = 14 + 4 * (data[14] & 15)
    end = 14 + struct.unpack_from(">H", data, 16)[0]
    body = payload(data[head + 8:end])
    ip = data[14:16] + struct.pack(">H", head - 14 + 8 + len(body)) + data[18:24] + b"\0\0" + data[26:head]
    total = sum(struct.unpack(">%dH" % (len(ip) // 2), ip))
    total = (total & 0xffff) + (total >> 16)
    total = (total & 0xffff) + (total >> 16)
    ip = ip[:10] + struct.pack(">H", total ^ 0xffff) + ip[12:]
    return data[:14] + ip + data[head:head + 4] + struct.pack(">HH", 8 + len(body), 0) + body

data, at = open(source, "rb").read(), 24
with open(target, "wb") as out:
    out.write(data[:24])
    while at < len(data):
        seconds, micros, length, _ = struct.unpack_from("<IIII", data, at)
        new = frame(data[at + 16:at + 16 + length])
        out.write(struct.pack("<IIII", seconds, micros, len(new), len(new)) + new)
        at += 16 + length
print(written)
