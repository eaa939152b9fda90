package main

import (
	"encoding/binary"
	"math/rand"
)

// size is a length: mostly small, and often at an edge of the forms of lengths.
func size(random *rand.Rand, most int) int {
	edges := []int{0, 1, 4, 6, 15, 16, 31, 32, 33, 95, 255, 256, 257, 512, 513, 1024, 1025}
	var n int
	switch random.Intn(8) {
	case 0:
		n = edges[random.Intn(len(edges))]
	case 1:
		n = random.Intn(most + 1)
	default:
		n = random.Intn(24)
	}
	if n > most {
		n = most
	}
	return n
}

func randomBytes(random *rand.Rand, n int) []byte {
	bytes := make([]byte, n)
	random.Read(bytes)
	return bytes
}

// number is a number of this many bits, often at an edge of the forms of numbers.
func number(random *rand.Rand, bits uint) uint64 {
	max := uint64(1)<<bits - 1
	edges := []uint64{0, 1, 127, 128, 255, 256, 32767, 32768, 65535, 65536, 1<<31 - 1, 1 << 31, 1<<32 - 1}
	n := random.Uint64() >> uint(random.Intn(64))
	if random.Intn(3) == 0 {
		n = edges[random.Intn(len(edges))]
	}
	return n & max
}

func text(random *rand.Rand, most int) string {
	return string(randomBytes(random, size(random, most)))
}

// address is mostly one of 4 or 16 bytes.
func address(random *rand.Rand) []byte {
	switch random.Intn(5) {
	case 0:
		return randomBytes(random, 16)
	case 1:
		return randomBytes(random, size(random, 40))
	}
	return randomBytes(random, 4)
}

func versions(random *rand.Rand) []byte {
	switch random.Intn(4) {
	case 0:
		return []byte{}
	case 1:
		return randomBytes(random, size(random, 12))
	}
	return randomBytes(random, 6)
}

func randomMessage(random *rand.Rand) fields {
	n32 := func() uint32 { return uint32(number(random, 32)) }
	n16 := func() uint16 { return uint16(number(random, 16)) }
	most := 1100
	if random.Intn(200) == 0 {
		most = 65535
	}
	switch random.Intn(9) {
	case 0:
		return &ping{n32(), text(random, most), address(random), n16(), text(random, most)}
	case 1:
		return &indirectPingReq{n32(), address(random), n16(), text(random, most), random.Intn(2) == 0, address(random),
			n16(), text(random, most)}
	case 2:
		return &ackResp{n32(), randomBytes(random, size(random, most))}
	case 3:
		return &nackResp{n32()}
	case 4:
		return &errResp{text(random, most)}
	case 5:
		return &suspect{n32(), text(random, most), text(random, most)}
	case 6:
		return &alive{n32(), text(random, most), address(random), n16(), randomBytes(random, size(random, most)),
			versions(random)}
	case 7:
		node := text(random, most)
		if random.Intn(2) == 0 {
			return &dead{n32(), node, node}
		}
		return &dead{n32(), node, text(random, most)}
	}
	bytes := user(randomBytes(random, size(random, most)))
	return &bytes
}

// small is a message whose changes are likely to meet its keys.
func small(random *rand.Rand) fields {
	for {
		message := randomMessage(random)
		if _, ok := message.(*user); !ok && len(encode(message, false)) < 200 {
			return message
		}
	}
}

// value is a MessagePack value of any kind, nested a few levels deep.
func value(random *rand.Rand, depth int) []byte {
	kind := random.Intn(18)
	if depth == 0 {
		kind = random.Intn(12)
	}
	n := random.Intn(4)
	switch kind {
	case 0:
		return []byte{0xc0}
	case 1:
		return []byte{byte(0xc2 + random.Intn(2))}
	case 2:
		return []byte{byte(random.Intn(128))}
	case 3:
		return []byte{byte(0xe0 + random.Intn(32))}
	case 4:
		heads := []byte{0xca, 0xcb, 0xcc, 0xcd, 0xce, 0xcf, 0xd0, 0xd1, 0xd2, 0xd3}
		sizes := []int{4, 8, 1, 2, 4, 8, 1, 2, 4, 8}
		i := random.Intn(len(heads))
		return append([]byte{heads[i]}, randomBytes(random, sizes[i])...)
	case 5, 6:
		return append([]byte{byte(0xa0 + n)}, randomBytes(random, n)...)
	case 7:
		return append([]byte{0xd9, byte(n)}, randomBytes(random, n)...)
	case 8:
		return append([]byte{0xc4, byte(n)}, randomBytes(random, n)...)
	case 9:
		return append([]byte{0xda, 0, byte(n)}, randomBytes(random, n)...)
	case 10:
		i := random.Intn(5)
		return append([]byte{byte(0xd4 + i)}, randomBytes(random, 1+1<<uint(i))...)
	case 11:
		return append([]byte{0xc7, byte(n)}, randomBytes(random, n+1)...)
	case 12, 13:
		out := []byte{byte(0x90 + n)}
		if random.Intn(3) == 0 {
			out = []byte{0xdc, 0, byte(n)}
		}
		for i := 0; i < n; i++ {
			out = append(out, value(random, depth-1)...)
		}
		return out
	case 14, 15:
		out := []byte{byte(0x80 + n)}
		if random.Intn(3) == 0 {
			out = []byte{0xde, 0, byte(n)}
		}
		for i := 0; i < n; i++ {
			out = append(out, value(random, 0)...)
			out = append(out, value(random, depth-1)...)
		}
		return out
	}
	out := []byte{0x93}
	for i := 0; i < 3; i++ {
		out = append(out, byte(random.Intn(256)))
	}
	return out
}

// keys are those of memberlist's structs, and two of none.
var keys = []string{"SeqNo", "Node", "SourceAddr", "SourcePort", "SourceNode", "Target", "Port", "Nack", "Payload",
	"Error", "Incarnation", "From", "Addr", "Meta", "Vsn", "node", "Colour"}

// pairs is a message of this type, whose map or array has any values.
func pairs(random *rand.Rand) []byte {
	types := []byte{0, 1, 2, 3, 4, 5, 11, 13}
	out := []byte{types[random.Intn(len(types))]}
	n := random.Intn(12)
	if random.Intn(4) == 0 {
		out = append(out, byte(0x90+n))
		for i := 0; i < n; i++ {
			out = append(out, value(random, 2)...)
		}
		return out
	}
	out = append(out, byte(0x80+n))
	for i := 0; i < n; i++ {
		key := keys[random.Intn(len(keys))]
		if random.Intn(4) == 0 {
			out = append(out, 0xd9, byte(len(key)))
		} else {
			out = append(out, byte(0xa0+len(key)))
		}
		out = append(out, key...)
		out = append(out, likely(random, key)...)
	}
	return out
}

// likely is a value that fits the key, but for one in eight.
func likely(random *rand.Rand, key string) []byte {
	if random.Intn(8) == 0 {
		return value(random, 2)
	}
	n := random.Intn(6)
	switch key {
	case "SeqNo", "SourcePort", "Port", "Incarnation":
		heads := [][]byte{{0xc0}, {byte(random.Intn(128))}, {0xcc, 7}, {0xd0, byte(random.Intn(128))}, {0xcd, 1, 2},
			{0xce, 0, 0, byte(random.Intn(256)), 9}, {0xd1, 4, 5}, {0xd3, 0, 0, 0, 0, 0, 0, 1, 2}}
		return heads[random.Intn(len(heads))]
	case "Nack":
		return []byte{[]byte{0xc0, 0xc2, 0xc3, 0, 1, 2}[random.Intn(6)]}
	case "Node", "SourceNode", "Error", "From":
		switch random.Intn(6) {
		case 0:
			return append([]byte{0xd9, byte(n)}, randomBytes(random, n)...)
		case 1:
			return []byte{0xc0}
		case 2:
			head := byte(0xe0 + random.Intn(32))
			return append([]byte{head}, randomBytes(random, int(head^0xa0))...)
		}
		return append([]byte{byte(0xa0 + n)}, randomBytes(random, n)...)
	case "SourceAddr", "Target", "Payload", "Addr", "Meta", "Vsn":
		switch random.Intn(6) {
		case 0:
			return append([]byte{0xc4, byte(n)}, randomBytes(random, n)...)
		case 1:
			return []byte{0xc0}
		case 2, 3:
			out := []byte{byte(0x90 + n)}
			if random.Intn(2) == 0 {
				out = []byte{byte(0x80 + n)}
				n *= 2
			}
			for i := 0; i < n; i++ {
				out = append(out, [][]byte{{0xc0}, {5}, {0xcc, 200}, {0xcd, 0, 77}}[random.Intn(4)]...)
			}
			return out
		}
		return append([]byte{byte(0xa0 + n)}, randomBytes(random, n)...)
	}
	return value(random, 2)
}

// strange is a message that was changed at random, or made of parts that need not fit. A count of four bytes is
// made small, since Go allocates what a count says.
func strange(random *rand.Rand) []byte {
	var message []byte
	switch random.Intn(4) {
	case 0:
		message = pairs(random)
	case 1:
		message = encodeArray(small(random), random.Intn(2) == 0)
	default:
		message = encode(small(random), random.Intn(2) == 0)
	}
	for n := random.Intn(4); n > 0 && len(message) > 1; n-- {
		at := 1 + random.Intn(len(message)-1)
		switch random.Intn(6) {
		case 0:
			message[at] ^= 1 << uint(random.Intn(8))
		case 1:
			message[at] = byte(random.Intn(256))
		case 2:
			message = message[:at]
		case 3:
			more := randomBytes(random, 1+random.Intn(3))
			message = append(message[:at:at], append(more, message[at:]...)...)
		case 4:
			message = append(message[:at:at], message[at+1:]...)
		case 5:
			message = added(random, message)
		}
	}
	if random.Intn(50) == 0 {
		message[0] = byte(random.Intn(16))
		if message[0] == 7 {
			message[0] = 12
		}
	}
	for at := 1; at < len(message); at++ {
		switch message[at] {
		case 0xc6, 0xc9, 0xdb, 0xdd, 0xdf:
			for i := at + 1; i < at+3 && i < len(message); i++ {
				message[i] = 0
			}
		}
	}
	return message
}

// added is the message with one more key in its map.
func added(random *rand.Rand, message []byte) []byte {
	if message[1] < 0x80 || message[1] >= 0x8f {
		return message
	}
	key := keys[random.Intn(len(keys))]
	pair := append([]byte{byte(0xa0 + len(key))}, key...)
	pair = append(pair, likely(random, key)...)
	out := append([]byte{message[0], message[1] + 1}, pair...)
	return append(out, message[2:]...)
}

// randomCompound is a compound message of parts of any bytes. Half of them are cut or have bytes behind.
func randomCompound(random *rand.Rand) []byte {
	n := random.Intn(5)
	if random.Intn(10) == 0 {
		n = random.Intn(256)
	}
	out := []byte{7, byte(n)}
	var parts []byte
	for i := 0; i < n; i++ {
		part := randomBytes(random, random.Intn(12))
		var length [2]byte
		binary.BigEndian.PutUint16(length[:], uint16(len(part)))
		out = append(out, length[:]...)
		parts = append(parts, part...)
	}
	out = append(out, parts...)
	switch random.Intn(4) {
	case 0:
		out = out[:1+random.Intn(len(out))]
	case 1:
		out = append(out, randomBytes(random, random.Intn(4))...)
	}
	if len(out) > 2 && random.Intn(4) == 0 {
		out[1+random.Intn(len(out)-1)] = byte(random.Intn(256))
	}
	return out
}
