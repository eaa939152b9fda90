# Turns the output of `tcpdump -x` for UDP packets, over IPv4 or IPv6 without extension headers, into their
# payloads: hexadecimal, one packet a line.

function number(from, count,    value, place) {
    value = 0
    for (place = from; place < from + count; place++)
        value = 16 * value + index("0123456789abcdef", substr(packet, place, 1)) - 1
    return value
}

# Where the UDP header begins. Its length field counts its own 8 bytes, but no padding of the frame.
function header() {
    return 1 + (packet ~ /^6/ ? 80 : 8 * number(2, 1))
}

function is_whole(    udp) {
    udp = header()
    return length(packet) >= udp + 15 && length(packet) >= udp - 1 + 2 * number(udp + 8, 4)
}

function show(    udp) {
    if (packet == "")
        return
    udp = header()
    print substr(packet, udp + 16, 2 * number(udp + 8, 4) - 16)
    fflush()
    packet = ""
    shown = 1
}

/^\t0x/ {
    if (shown)
        next
    sub(/^[^:]*: */, "")
    gsub(/ /, "")
    packet = packet $0
    # print a whole packet at once, for a live capture
    if (is_whole())
        show()
    next
}

{
    show()
    shown = 0
}

END { show() }
