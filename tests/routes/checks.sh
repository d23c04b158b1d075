# The tests of the example programs and of ./demo: a part of tests/run, whose functions and variables are used here.
# shellcheck shell=bash disable=SC2154,SC2317

# answers NAME [FILE]: the daemon says of these packets what is expected, with the network of examples/NAME.txt or of this file
answers() {
    "$out/daemon" "${2:-examples/$1.txt}" <"tests/daemon/$1.packets" >"$out/$1.answers" || return 1
    diff "tests/daemon/$1.expected" "$out/$1.answers"
}

# says PROGRAM STATUS TEXT ARGUMENT..: the program ends so, with this text and no other
says() {
    local program=$1 status=$2 expected=$3 said
    shift 3
    said=$("$out/$program" "$@" </dev/null 2>&1)
    [ "$?,$said" = "$status,$expected" ] && return 0
    printf 'expected: %s\nsaid:     %s\n' "$expected" "$said"
    return 1
}

# turned_down FILE: both programs end with status 1 and the message that the file's first line names
turned_down() {
    local expected
    expected="$1:$(sed -n '1s/^# //p' "$1")"
    says daemon 1 "$expected" "$1" && says routes 1 "$expected" "$1"
}

# Files that are accepted for what they are not at first sight, and files that cannot stand in a folder of text files.
odd_files() {
    sed 's/$/\r/' examples/smallnet.txt >"$out/crlf.txt"
    check 'lines that end in CR LF' answers smallnet "$out/crlf.txt"
    printf '%s' "$(cat examples/smallnet.txt)" >"$out/endless.txt"
    check 'no end of line at the end' answers smallnet "$out/endless.txt"
    : >"$out/empty.txt"
    check 'an empty file' says routes 1 "$out/empty.txt:1: the file ends before \`nodes\`, \`protocols\` and \`height\` are given" "$out/empty.txt"
    printf 'nodes 4\nprotocols a b\0 c\n' >"$out/nul.txt"
    { printf '#%01022d\n' 0; cat examples/smallnet.txt; } >"$out/wide.txt"
    check 'a line of 1023 characters' answers smallnet "$out/wide.txt"
    { printf '#%01023d\n' 0; cat examples/smallnet.txt; } >"$out/wider.txt"
    check 'a line of 1024 characters' says routes 1 "$out/wider.txt:1: the line is too long" "$out/wider.txt"
    check 'a NUL byte' says routes 1 "$out/nul.txt:2: the line has a NUL byte" "$out/nul.txt"
    check 'a file that is not there' says routes 1 "$out/nothing.txt: No such file or directory" "$out/nothing.txt"
    check 'a folder' says routes 1 'examples: Is a directory' examples
}

daemon() {
    local file
    printf '== the daemon in C\n'
    check 'the daemon compiles without a warning' quietly build_example daemon "$out/daemon"
    [ -x "$out/daemon" ] || return
    for file in tests/daemon/*.packets; do
        file=${file##*/}
        check "packets of ${file%.packets}" answers "${file%.packets}"
    done
}

# prints NAME ARGUMENT..: the program routes prints what tests/routes/NAME.expected has
prints() {
    local name=$1
    shift
    "$out/routes" "$@" >"$out/$name.printed" || return 1
    diff "tests/routes/$name.expected" "$out/$name.printed"
}

# routed NAME FROM TO [STACK]: of the eleven depots it prints the same up to the route, and then what tests/routes/NAME.expected has
routed() {
    local name=$1
    shift
    "$out/routes" examples/depots.txt "$@" >"$out/$name.printed" || return 1
    sed '/^No pair was named/,$d' tests/routes/depots.expected | cat - "tests/routes/$name.expected" | diff - "$out/$name.printed"
}

# dear_carry: a carry that spends one more than it should is noticed
dear_carry() {
    local said
    build_example routes "$out/dear" -Dbannogwy_carry=dear_carry tests/routes/dear_carry.c || return 1
    said=$("$out/dear" examples/depots.txt 2>&1 >/dev/null)
    [ "$?,$said" = '1,routes: the library'"'"'s answers disagree: carry makes other hops, spends something else or arrives elsewhere' ]
}

routes() {
    local file depots=examples/depots.txt names='Aberlas Brynteg Caerwen Dolgoch Felindre Glanrafon Hendre Llanfair Maesgwyn Pontddu Trefawr'
    printf '== the routes of a network file, in C\n'
    check 'routes compiles without a warning' quietly build_example routes "$out/routes"
    [ -x "$out/routes" ] || return
    check 'the eleven depots' prints depots "$depots"
    check 'another pair, and back through another depot' routed back Maesgwyn Aberlas
    check 'a pair with conversions' routed converted Trefawr Aberlas
    check 'a packet that starts inside a tunnel' routed inside Caerwen Aberlas IPv4/IPv6
    check 'a pair with no route' routed no-route Aberlas Trefawr
    check 'a stack with no route' routed no-stack Aberlas Maesgwyn IPv6
    check 'nodes with numbers' prints smallnet examples/smallnet.txt
    check 'wide costs, in bands' prints bands tests/routes/bands.txt
    check 'no route at all' prints lonely tests/routes/lonely.txt
    check 'a wrong carry is noticed' dear_carry
    for file in tests/daemon/bad-*.txt; do
        check "turned down: $file" turned_down "$file"
    done
    odd_files
    check 'no file' says routes 2 'usage: routes NETWORK [FROM TO [STACK]]'
    check 'FROM without TO' says routes 2 'usage: routes NETWORK [FROM TO [STACK]]' "$depots" Aberlas
    check 'an unknown depot' says routes 2 "routes: no depot has the name Aberla; there are $names" "$depots" Hendre Aberla
    check 'a number above the last depot' says routes 2 'routes: no depot has the name 4; there are 0 1 2 3' examples/smallnet.txt 4 0
    check 'no name at all' says routes 2 'routes: no depot has the name ; there are 0 1 2 3' examples/smallnet.txt '' 0
    check 'one depot twice' says routes 2 'routes: Hendre is FROM and TO alike; a route is between two depots' "$depots" Hendre Hendre
    check 'an unknown header' says routes 2 'routes: STACK is wrong: the stack has a name that is no protocol' "$depots" Hendre Aberlas IPv6/IPv5
    check 'a header missing' says routes 2 'routes: STACK is wrong: the stack has a name that is no protocol' "$depots" Hendre Aberlas IPv6/
    check 'a stack too high' says routes 2 'routes: STACK is wrong: the stack is too high' "$depots" Hendre Aberlas X25/X25/X25/X25/X25
}

# demo_prints: the one command prints, after its steps, what the program does for the eleven depots
demo_prints() {
    ./demo >"$out/demo.printed" || return 1
    sed '1,/^3\/3/d' "$out/demo.printed" | sed 1d | diff tests/routes/depots.expected -
}

# demo_ends STATUS LAST ARGUMENT..: called in another folder, it ends so, and its last line begins so
demo_ends() {
    local status=$1 last=$2 said
    shift 2
    said=$(cd examples && ../demo "$@" 2>&1)
    [ $? -eq "$status" ] && [[ $(tail -n 1 <<<"$said") == "$last"* ]] && return 0
    printf '%s\n' "$said"
    return 1
}

demo() {
    printf '== the one command\n'
    check './demo' demo_prints
    check './demo -h' demo_ends 0 'Exit status' -h
    check './demo with two arguments' demo_ends 2 'Exit status' depots.txt Aberlas
    check './demo with a file that is not there' demo_ends 1 'demo: nothing.txt' nothing.txt
    check './demo with an unknown depot' demo_ends 2 'routes: no depot has the name Nowhere' depots.txt Aberlas Nowhere
}
