# The tests of reading packets: a part of tests/run, whose functions and variables are used here.
# shellcheck shell=bash disable=SC2154,SC2317

# Debian's Python, which has scapy; it leaves no compiled files beside the sources
python=(/usr/bin/python3 -B)
packets=$out/packets
seed=6

prepare_packets() {
    local missing=()
    "${python[@]}" -c 'import scapy' >/dev/null 2>&1 || missing+=(python3-scapy)
    command -v tshark >/dev/null 2>&1 || missing+=(tshark)
    if [ "${#missing[@]}" -gt 0 ]; then
        install --no-install-recommends "${missing[@]}"
    fi
}

packets_answered() {
    "$out/headers" <"$packets.records" >"$packets.answers"
}

# packets_agree PROGRAM: the answers are what this program reads
packets_agree() {
    "${python[@]}" tests/headers/compare.py "$1" "$packets"
}

# packets_caught PROGRAM FAULT: a mismatch is found where this fault is planted
packets_caught() {
    local log=$out/packets-$1-$2.log
    "${python[@]}" tests/headers/compare.py "$1" "$packets" "$2" >"$log" 2>&1
    [ "$?" -eq 1 ] && grep -q '^mismatch: ' "$log"
}

packet_faults() {
    local faults fault
    mapfile -t faults < <("${python[@]}" tests/headers/faults.py)
    check 'there are faults to plant' [ "${#faults[@]}" -gt 0 ]
    for fault in "${faults[@]}"; do
        beside "caught by the answers: $fault" packets_caught reader "$fault"
    done
    for fault in checksum_unseen wrong_holder fragments_pass exchanged_64_65 upside_down one_header_too_many; do
        beside "caught by tshark: $fault" packets_caught tshark "$fault"
    done
    for fault in upside_down one_header_too_many part_to_the_end; do
        beside "caught by scapy: $fault" packets_caught scapy "$fault"
    done
    together
}

# next_hop NODE DESTINATION STACK: for a packet of scapy's with this stack packet_hop says what the daemon says for the stack itself
next_hop() {
    local packet=$out/packet_hop.packet said
    "${python[@]}" tests/headers/one_packet.py "$3" >"$packet" || return 1
    said=$("$out/packet_hop" examples/depots.txt "$1" "$2" <"$packet") || return 1
    printf '%s\n' "$1 $2 $3" | "$out/daemon" examples/depots.txt | diff - <(tail -n 1 <<<"$said") &&
        [[ $said == "stack $3, then 4 bytes from byte "* ]]
}

# hop_refused SAYS COMMAND..: packet_hop turns down what the command writes
hop_refused() {
    local says=$1
    shift
    [ "$("$@" | "$out/packet_hop" examples/depots.txt Aberlas Maesgwyn)" = "$says" ]
}

packet_hops() {
    check 'packet_hop compiles without a warning' quietly build_example packet_hop "$out/packet_hop"
    check 'the next hop of a packet with one header' next_hop Aberlas Maesgwyn IPv4
    check 'the next hop of a packet in a tunnel' next_hop Caerwen Aberlas IPv4/IPv6
    check 'a packet with no route' next_hop Aberlas Trefawr IPv4
    check 'a packet that is none' hop_refused 'refused 61 (too short): header 0 from outside, at byte 0' printf 'E'
    check 'a packet of another version' hop_refused 'refused 62 (wrong version): header 0 from outside, at byte 0' printf 'packets have a version number'
}

# the packets, and what tshark makes of them: no library is needed
make_packets() {
    printf '== packets made by scapy and taken apart by tshark\n'
    check 'packets are made by scapy' "${python[@]}" tests/headers/make.py "$packets" "$seed"
    check 'tshark takes the packets apart' "${python[@]}" tests/headers/tshark_reading.py "$packets"
}

read_packets() {
    local program
    printf '== packets read, beside an independent reader, tshark and scapy\n'
    check 'the program that reads packets compiles without a warning' quietly "${c_compiler[@]}" -std=c99 -Wall -Wextra -pedantic -O2 -Iinclude \
        -o "$out/headers" tests/headers/answers.c "$library/libbannogwy.a"
    check 'packets are answered, and nothing beside the slices is touched' packets_answered
    for program in reader tshark scapy; do
        beside "packets agree with $program" packets_agree "$program"
    done
    together
    packet_faults
    packet_hops
}
