# Turns a listing of swimtab into `name address:port state`, one member a line. `back` follows if the
# member was declared dead or left, and an Alive with a greater incarnation was seen: it came back under
# its name, but in the table its death or leave is final.

function number(digits,    value, place) {
    value = 0
    for (place = 1; place <= length(digits); place++)
        value = 16 * value + index("0123456789abcdef", substr(digits, place, 1)) - 1
    return value
}

function address(digits,    text, place) {
    if (length(digits) == 8)
        return number(substr(digits, 1, 2)) "." number(substr(digits, 3, 2)) "." \
            number(substr(digits, 5, 2)) "." number(substr(digits, 7, 2))
    text = substr(digits, 1, 4)
    for (place = 5; place < length(digits); place += 4)
        text = text ":" substr(digits, place, 4)
    return "[" text "]"
}

$4 == "-" {
    print $1, "-", $2
    next
}

{
    split($4, home, "/")
    print $1, address(home[2]) ":" home[3], $2 (home[1] + 0 > $3 + 0 ? " back" : "")
}
