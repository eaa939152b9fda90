# The rows of data in tests/rows. Each file there says what its fields are.
# shellcheck shell=sh disable=SC2034,SC2154

field_end=$(printf '\037')

# rows NAME: writes the rows of tests/rows/NAME to the file rows. Their fields end with a byte that is not white
# space, so that read keeps empty fields.
rows() {
    sed '/^#/d; /^$/d' "$here/rows/$1" | tr '\t' "$field_end" > rows
    [ -s rows ] || count "tests/rows/$1" '; there are no rows'
}

# gives TEXT WORD..: runs the program with these arguments on the input that printf %b makes from TEXT.
gives() {
    printf '%b' "$1" > input
    shift
    run "$@" < input
}

# asks WORDS: runs the program with these arguments, which are separated by spaces, on a suspect packet of b. The
# argument '' is empty.
asks() {
    words_given=$1
    set --
    for word in $words_given; do
        [ "$word" != "''" ] || word=
        set -- "$@" "$word"
    done
    echo "$suspect_b" > input
    run "$@" < input
}

# prints_text CASE STATUS TEXT: the last run printed TEXT, after printf %b, and nothing on standard error.
prints_text() {
    case_name=$1
    wanted_status=$2
    printf '%b' "$3" > wanted
    : > wanted_err
    compare
}

# tells CASE STATUS TEXT: the last run printed nothing, and TEXT, after printf %b, on standard error.
tells() {
    case_name=$1
    wanted_status=$2
    : > wanted
    printf '%b' "$3" > wanted_err
    compare
}

# Packets.
rows listings
while IFS=$field_end read -r what packets listing; do
    gives "$packets"
    prints_text "$what" 0 "$listing"
done < rows

rows orders
while IFS=$field_end read -r what listing first second third; do
    if [ -z "$third" ]; then
        set -- "$first\n$second\n" "$second\n$first\n"
    else
        set -- "$first\n$second\n$third\n" "$first\n$third\n$second\n" "$second\n$first\n$third\n" \
            "$second\n$third\n$first\n" "$third\n$first\n$second\n" "$third\n$second\n$first\n"
    fi
    for packets in "$@"; do
        gives "$packets"
        prints_text "$what: $packets" 0 "$listing"
    done
done < rows

rows spellings
while IFS=$field_end read -r listing packet; do
    gives "$packet"
    prints_text "the packet $packet" 0 "$listing"
done < rows

rows refused_packets
while IFS=$field_end read -r packets text; do
    gives "$packets"
    refuses "the packets '$packets'" 3 "$text"
done < rows

# Files.
rows files
while IFS=$field_end read -r name digits; do
    bytes "$digits" > "$name"
done < rows

rows commands
while IFS=$field_end read -r words wanted_status text; do
    asks "$words"
    if [ "$wanted_status" -le 1 ]; then
        prints_text "swimtab $words" "$wanted_status" "$text"
    else
        tells "swimtab $words" "$wanted_status" "$text"
    fi
done < rows

rows merges
while IFS=$field_end read -r words merged; do
    asks "merge $words"
    prints_file "swimtab merge $words" "$merged"
done < rows

rows refused_dumps
cp p 'a dump'
while IFS=$field_end read -r digits fault; do
    bytes "$digits" > 'no dump'
    text="swimtab: no dump: fault $fault"
    for command in list merge; do
        run $command 'no dump'
        refuses "$command $digits" 3 "$text"
        run $command 'a dump' 'no dump'
        refuses "$command a dump and $digits" 3 "$text"
    done
    for command in relate loop; do
        run $command 'no dump' 'a dump'
        refuses "$command $digits and a dump" 3 "$text"
        run $command 'a dump' 'no dump'
        refuses "$command a dump and $digits" 3 "$text"
    done
done < rows

# Scripts.
rows scripts
while IFS=$field_end read -r what script listings; do
    gives "$script" run
    prints_text "$what" 0 "$listings"
done < rows

rows refused_scripts
while IFS=$field_end read -r script text; do
    gives "$script" run
    refuses "the script '$script'" 3 "$text"
done < rows

# Words.
rows words
while IFS=$field_end read -r words part; do
    asks "$words"
    explains "swimtab $words"
    [ -n "$part" ] || continue
    case $(cat err) in
        *"$part"*) count "swimtab $words mentions '$part'" '' ;;
        *) count "swimtab $words mentions '$part'" '; it does not' ;;
    esac
done < rows
