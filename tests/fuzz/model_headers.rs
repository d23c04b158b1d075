// The independent program's reading of a packet: the text of include/bannogwy.h and RFCs 791 and 8200, on bytes that each header narrows.
use crate::planted::planted;
use crate::stacks;

// what a header that passes its tests says
struct Header {
    protocol: u8,
    length: usize,
    packet_length: usize,
    next: u8,
}

// which header of a packet is refused, and where it starts
struct Refused {
    refusal: u64,
    header: usize,
    start: usize,
}

// a 16-bit field, the higher byte first
fn field(bytes: &[u8], at: usize) -> usize {
    usize::from(u16::from_be_bytes([bytes[at], bytes[at + 1]]))
}

// the one's complement sum of 16-bit words, the carries added at the end as RFC 1071 has it
pub fn ones_sum(bytes: &[u8]) -> usize {
    let mut sum: usize = bytes.chunks_exact(2).map(|word| field(word, 0)).sum();
    while sum > 0xFFFF {
        sum = (sum & 0xFFFF) + (sum >> 16);
    }
    sum
}

// `held` is what holds the packet, from its first byte on
fn ipv4(held: &[u8]) -> Result<Header, u64> {
    let (length, packet_length) = (4 * usize::from(held[0] & 15), field(held, 2));
    if length < 20 || packet_length < length {
        return Err(63);
    }
    if packet_length > held.len() {
        return Err(64);
    }
    if ones_sum(&held[..length]) != 0xFFFF && !planted("checksum_unseen") {
        return Err(65);
    }
    let (more_to_come, offset) = (held[6] & 0x20 != 0, field(held, 6) & 0x1FFF);
    if more_to_come || offset != 0 {
        return Err(66);
    }
    Ok(Header { protocol: 0, length, packet_length, next: held[9] })
}

fn ipv6(held: &[u8]) -> Result<Header, u64> {
    let packet_length = 40 + field(held, 4);
    if packet_length > held.len() {
        return Err(64);
    }
    Ok(Header { protocol: 1, length: 40, packet_length, next: held[6] })
}

// the header in front, which has one of these versions
fn front(held: &[u8], versions: &[u8]) -> Result<Header, u64> {
    let version = held.first().ok_or(61u64)? >> 4;
    if held.len() < if version == 6 { 40 } else { 20 } {
        return Err(61);
    }
    match version {
        _ if !versions.contains(&version) => Err(62),
        4 => ipv4(held),
        _ => ipv6(held),
    }
}

// the stack, bottom to top, and where the innermost packet's part begins and ends
fn followed(h: usize, packet: &[u8]) -> Result<(Vec<u8>, usize, usize), Refused> {
    let (mut held, mut start, mut versions): (_, _, &[u8]) = (packet, 0, &[4, 6]);
    let mut stack = Vec::new();
    loop {
        let here = |refusal| Refused { refusal, header: stack.len(), start };
        let header = front(held, versions).map_err(here)?;
        if stack.len() == h {
            return Err(here(67));
        }
        stack.insert(0, header.protocol);
        held = &held[header.length..header.packet_length];
        start += header.length;
        versions = match header.next {
            4 => &[4],
            41 => &[6],
            _ => return Ok((stack, start, start + held.len())),
        };
    }
}

// the refusal, or 0; `out` and `answer` become what they must be
pub fn read_stack(h: usize, packet: &[u8], out: &mut [u8], answer: &mut [u64]) -> u64 {
    if answer.len() < 4 {
        if planted("zeros_in_short_answer") {
            answer.fill(0);
        }
        return 9;
    }
    let read = if (1..=12).contains(&h) { followed(h, packet) } else { Err(Refused { refusal: 1, header: 0, start: 0 }) };
    let (refusal, numbers) = match read {
        Err(Refused { refusal, header, start }) => (refusal, [header, start, 0, 0]),
        Ok((stack, _, _)) if stack.len() > out.len() => (9, [0; 4]),
        Ok((stack, from, to)) => {
            out[..stack.len()].copy_from_slice(&stack);
            (0, [stack.len(), stacks::number(2, h, &stack).unwrap_or(0) as usize, from, to])
        }
    };
    answer[..4].copy_from_slice(&numbers.map(|number| number as u64));
    refusal
}
