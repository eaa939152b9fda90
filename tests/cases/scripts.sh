# run: what the nodes of a script list at its end. Other scripts are in tests/rows.
# shellcheck shell=sh disable=SC2154

node_a='node a 7f000001 7946 - - 0'
node_b='node b 7f000002 7946 - - 0'
node_c='node c 7f000003 7946 - - 0'
knows_a='a alive 0 0/7f000001/7946//'
knows_b='b alive 0 0/7f000002/7946//'
knows_c='c alive 0 0/7f000003/7946//'

feed "$node_a\r\n$node_b\r\n\r\n$node_c\r\nlevel\r\n\n" run
prints 'three nodes that are levelled' 0 'node 0' "$knows_a" "$knows_b" "$knows_c" \
    'node 1' "$knows_a" "$knows_b" "$knows_c" 'node 2' "$knows_a" "$knows_b" "$knows_c"
feed "node a%%20%%25 7f000001 7946 6d 010502000000 3\n" run
prints 'a name with escapes' 0 'node 0' 'a%20%25 alive 3 3/7f000001/7946/6d/010502000000'
feed "$node_a\n$node_b\n\n$node_c\nlevel" run
prints 'levelling, with plain line feeds' 0 'node 0' "$knows_a" "$knows_b" "$knows_c" \
    'node 1' "$knows_a" "$knows_b" "$knows_c" 'node 2' "$knows_a" "$knows_b" "$knows_c"
feed "$node_a\nlevel\n" run
prints 'levelling of one node' 0 'node 0' "$knows_a"
feed "$node_a\n$node_a\n" run
prints 'two nodes with the same name' 0 'node 0' "$knows_a" 'node 1' "$knows_a"
feed "node a 7F000001 007946 - - 00\nrefute 00\n" run
prints 'digits in upper case, and zeros before numbers' 0 'node 0' "$knows_a"

# The same exchange after and before the packets that two nodes hear.
suspected='b suspect 1 0/7f000002/7946//'
feed "$node_a\n$node_b\nhear 0 $suspect_b\nhear 1 $suspect_b\nexchange 0 1\n" run
prints 'a suspicion at both nodes, and then an exchange' 0 'node 0' "$knows_a" "$suspected" 'node 1' "$knows_a" "$suspected"
feed "$node_a\n$node_b\nexchange 0 1\nhear 0 $suspect_b\nhalf 0 1\n" run
prints 'a suspicion after an exchange, and then half of one' 0 'node 0' "$knows_a" "$suspected" 'node 1' "$knows_a" "$suspected"

# refutes CASE PACKET LINE: a node a at incarnation 3 that hears the packet, and refutes, lists the line.
refutes() {
    feed "node a 7f000001 7946 - - 3\nhear 0 $2\nrefute 0\n" run
    prints "$1" 0 'node 0' "$3"
}
refutes 'a suspicion at a greater incarnation is refuted' "$(suspect 61 07)" 'a alive 8 8/7f000001/7946//'
refutes 'other details are refuted' "$(alive 61 05 7f000001 01)" 'a alive 6 6/7f000001/7946//'
refutes 'a suspicion at the last incarnation stays' "$(suspect 61 ceffffffff)" 'a suspect 4294967295 3/7f000001/7946//'
refutes 'a death stays' "$(dead 61 00 78)" 'a confirm 0 3/7f000001/7946//'
refutes 'a leave stays' "$(dead 61 03 61)" 'a leave 3 3/7f000001/7946//'
refutes 'nothing is refuted' "$suspect_b" 'a alive 3 3/7f000001/7946//
b suspect 1 -'

feed "$node_a\nrefute 7\nhear 0 0g\n" run
refuses 'a line that cannot be read, before an event that is refused' 3 'swimtab: line 3: fault 30 BadHex'
feed "$node_a\nhear 0 04\n" run
refuses 'a packet that is cut' 3 'swimtab: line 2: fault 1 Ended'
feed "$node_a\nhear 0 09\n" run
refuses 'a packet of a type that is not read' 3 'swimtab: line 2: fault 16 WrongType 9'
feed "$node_a\nhear 0 $(suspect 61 01)\nrefute 0\nhear 1 $(suspect 61 01)\n" run
refuses 'a packet for a node that does not exist, after events' 3 'swimtab: line 4: fault 26 NoSuchNode'
feed "$node_a\nhalf 1 1\n" run
refuses 'a node that does not exist, twice' 3 'swimtab: line 2: fault 26 NoSuchNode'
feed "$node_a\nexchange 0 0\n$node_b\n" run
refuses 'a node after an event' 3 'swimtab: line 3: fault 31 BadScript'
feed "$node_a\nrefute 000000000000000000000\n" run
refuses 'a number of 21 digits' 3 'swimtab: line 2: fault 31 BadScript'
feed "\n\r\nexchange  0 1\n" run
refuses 'a doubled space, after lines that are skipped' 3 'swimtab: line 3: fault 31 BadScript'
feed "node a 7f0000 7946 - - 0\n" run
refuses 'an address of three bytes' 3 'swimtab: line 1: fault 13 BadAddress'
run run < over.bin
refuses 'a script that is too long' 3 'swimtab: input: fault 32 InputTooLong'
run run < /
refuses 'a directory as the script' 4 'swimtab: input: device fault'
