// What every call is lent: a network and a table as flat slices; and the calls themselves, which both sides offer in this one form.

pub struct Network {
    pub n: usize,
    pub p: usize,
    pub h: usize,
    pub links: Vec<u16>,
    pub functions: Vec<u16>,
}

#[derive(Clone, PartialEq)]
pub struct Table {
    pub cost: Vec<u32>,
    pub way: Vec<u16>,
    pub waiting: Vec<u32>,
}

impl Network {
    pub fn stack_count(&self) -> usize {
        (0..self.h).fold(0, |count, _| self.p * count + self.p)
    }

    pub fn rows(&self) -> usize {
        self.n * self.n * self.stack_count()
    }

    // a table full of junk
    pub fn table(&self) -> Table {
        let rows = self.rows();
        Table { cost: vec![7; rows], way: vec![7; rows], waiting: vec![7; rows] }
    }

    pub fn name(&self) -> String {
        format!("n={} p={} h={}", self.n, self.p, self.h)
    }
}

pub struct Packet {
    pub node: usize,
    pub destination: usize,
    pub stack: Vec<u8>,
}

// The calls of one side, with the answers of include/bannogwy.h. They are called through these pointers, so that neither side is inlined.
pub struct Side {
    pub fresh: fn(&Network, &mut Table) -> u64,
    pub count: fn(&Network, &Table) -> u64,
    pub first_waiting: fn(&Network, &Table) -> u64,
    pub run: fn(&Network, &mut Table, u32) -> (u64, [u64; 2]),
    pub lookup: fn(&Network, &Table, usize, usize, &[u8]) -> u64,
    pub carry: fn(&Network, &Table, &Packet, usize) -> (u64, [u64; 4]),
}

// The value, in a way that the optimiser cannot see through: std::hint::black_box is newer than the oldest compiler that builds this.
pub fn opaque<T: Copy>(value: T) -> T {
    unsafe { std::ptr::read_volatile(&value) }
}
