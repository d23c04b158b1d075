// Packets: chains of IPv4 and IPv6 headers, made from the inside out, right or with slips at some header; and bytes drawn without regard.
use crate::draw_numbers::fill;
use crate::model_headers::ones_sum;
use crate::rng::Rng;

// what can be wrong at one header
#[derive(Clone, Copy, PartialEq)]
enum Slip {
    Version,
    Next,
    Longer,
    Shorter,
    Cut,
    // of IPv4 alone
    HeaderLength,
    TotalLength,
    Checksum,
    Fragment,
}

const SLIPS: [Slip; 9] = [
    Slip::Version,
    Slip::Next,
    Slip::Longer,
    Slip::Shorter,
    Slip::Cut,
    Slip::HeaderLength,
    Slip::TotalLength,
    Slip::Checksum,
    Slip::Fragment,
];
const OF_IPV4: [Slip; 4] = [Slip::HeaderLength, Slip::TotalLength, Slip::Checksum, Slip::Fragment];
// numbers of what follows a header that announce none: extension headers and others, and those beside 4 and 41
const ENDS: [u8; 14] = [0, 1, 3, 5, 6, 17, 40, 42, 43, 44, 51, 58, 60, 255];
// lengths of what follows the outermost header, at the end of what its length field can tell
const LONGEST: [usize; 5] = [65_475, 65_515, 65_516, 65_535, 65_536];

// for the most part with this many headers
pub fn draw(rng: &mut Rng, height: usize) -> Vec<u8> {
    let mut packet = if rng.chance(5) { any(rng) } else { chain(rng, height) };
    if rng.chance(10) && !packet.is_empty() {
        for _ in 0..rng.between(1, 3) {
            let at = rng.below(packet.len());
            packet[at] ^= 1 << rng.below(8);
        }
    }
    packet
}

fn any(rng: &mut Rng) -> Vec<u8> {
    let len = rng.below(100);
    let mut packet: Vec<u8> = fill(rng, len);
    if len > 0 && rng.chance(60) {
        packet[0] = rng.pick(&[0x45, 0x46, 0x4F, 0x60, 0x6F]);
    }
    packet
}

// none, one or two slips, each at one of the headers, 0 the innermost
fn slips(rng: &mut Rng, height: usize) -> Vec<(usize, Slip)> {
    let at = rng.below(height);
    let count = rng.pick(&[0, 0, 1, 1, 1, 2]);
    (0..count).map(|_| (if rng.chance(60) { at } else { rng.below(height) }, rng.pick(&SLIPS))).collect()
}

fn chain(rng: &mut Rng, height: usize) -> Vec<u8> {
    let (slips, longest) = (slips(rng, height), rng.below(400) == 0);
    let len = rng.below(30);
    let mut packet = fill(rng, len);
    let mut next = rng.pick(&ENDS);
    for level in 0..height {
        if longest && level + 1 == height {
            packet.resize(rng.pick(&LONGEST), 0);
        }
        let here: Vec<Slip> = slips.iter().filter(|(at, _)| *at == level).map(|(_, slip)| *slip).collect();
        let is_ipv4 = rng.chance(50) || here.iter().any(|slip| OF_IPV4.contains(slip));
        packet = if is_ipv4 { ipv4(rng, next, &packet, &here) } else { ipv6(rng, next, &packet, &here) };
        next = if is_ipv4 { 4 } else { 41 };
        if here.contains(&Slip::Cut) {
            let most = if rng.chance(50) { packet.len() } else { packet.len().min(45) };
            packet.truncate(rng.below(most));
        }
        if rng.chance(12) {
            let len = rng.below(50);
            packet.extend(fill::<u8>(rng, len));
        }
    }
    packet
}

fn put(packet: &mut [u8], at: usize, number: usize) {
    packet[at..at + 2].copy_from_slice(&(number as u16).to_be_bytes());
}

// the packet of an IPv4 header, `next` saying what the part after it is
fn ipv4(rng: &mut Rng, next: u8, part: &[u8], slips: &[Slip]) -> Vec<u8> {
    let words = if rng.chance(70) { 5 } else { rng.between(6, 15) };
    let mut packet: Vec<u8> = fill(rng, 4 * words);
    packet.extend(part);
    let len = packet.len();
    packet[0] = 0x40 | words as u8;
    put(&mut packet, 2, len);
    // DF and the bit above it stay as they were drawn
    packet[6] &= 0xC0;
    packet[7] = 0;
    packet[9] = next;
    slips.iter().for_each(|&slip| spoil(rng, &mut packet, (2, len), 9, slip));
    seal(rng, &mut packet);
    if slips.contains(&Slip::Checksum) {
        let at = rng.pick(&[10, 11, 4 * words - 1]);
        packet[at] ^= 1 << rng.below(8);
    }
    packet
}

fn ipv6(rng: &mut Rng, next: u8, part: &[u8], slips: &[Slip]) -> Vec<u8> {
    let mut packet: Vec<u8> = fill(rng, 40);
    packet.extend(part);
    packet[0] = 0x60 | packet[0] & 15;
    put(&mut packet, 4, part.len());
    packet[6] = next;
    slips.iter().for_each(|&slip| spoil(rng, &mut packet, (4, part.len()), 6, slip));
    packet
}

// a slip before the checksum is made; the place of the length field with its right number, and the place of the next header's
fn spoil(rng: &mut Rng, packet: &mut [u8], (length_at, length): (usize, usize), next_at: usize, slip: Slip) {
    let off = if rng.chance(70) { 1 } else { rng.between(1, 80) };
    match slip {
        Slip::Version => packet[0] ^= if rng.chance(50) { 0x20 } else { 16 * rng.between(1, 15) as u8 },
        Slip::Next => packet[next_at] = if rng.chance(60) { rng.pick(&[4, 41]) } else { rng.pick(&ENDS) },
        Slip::Longer => put(packet, length_at, length + off),
        Slip::Shorter => put(packet, length_at, length.saturating_sub(off)),
        Slip::HeaderLength => packet[0] = packet[0] & 0xF0 | if rng.chance(50) { 4 } else { rng.below(16) as u8 },
        Slip::TotalLength => {
            let header_length = 4 * usize::from(packet[0] & 15).max(1);
            put(packet, length_at, if rng.chance(50) { header_length - 1 } else { rng.below(header_length) });
        }
        Slip::Fragment => {
            let bit = rng.below(14);
            packet[6 + usize::from(bit < 8)] |= 1 << (bit % 8);
        }
        Slip::Cut | Slip::Checksum => {}
    }
}

// makes the header's sum all ones: by the checksum, or, where that is to be 0 or all ones, by the identification
fn seal(rng: &mut Rng, packet: &mut [u8]) {
    let end = (4 * usize::from(packet[0] & 15)).clamp(20, packet.len() & !1);
    let mut at = 10;
    if rng.chance(10) {
        put(packet, 10, rng.pick(&[0, 0xFFFF]));
        at = 4;
    }
    put(packet, at, 0);
    let rest = ones_sum(&packet[..end]);
    put(packet, at, 0xFFFF - rest);
}
