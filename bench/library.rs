// The library's side: its calls on the slices of a network and a table.
use crate::bannogwy::{bannogwy_carry, bannogwy_count, bannogwy_first_waiting, bannogwy_fresh, bannogwy_lookup, bannogwy_run};
use crate::lent::{Network, Packet, Side, Table};

pub const SIDE: Side = Side { fresh, count, first_waiting, run, lookup, carry };

// `pointer`: as_ptr, or as_mut_ptr where the call writes the table
macro_rules! call {
    ($name:ident, $net:ident, $table:ident.$pointer:ident $(, $more:expr)*) => {
        unsafe {
            $name(
                $net.n, $net.p, $net.h,
                $net.links.as_ptr(), $net.links.len(), $net.functions.as_ptr(), $net.functions.len(),
                $table.cost.$pointer() as *mut u32, $table.cost.len(),
                $table.way.$pointer() as *mut u16, $table.way.len(),
                $table.waiting.$pointer() as *mut u32, $table.waiting.len()
                $(, $more)*
            )
        }
    };
}

fn fresh(net: &Network, table: &mut Table) -> u64 {
    call!(bannogwy_fresh, net, table.as_mut_ptr)
}

fn count(net: &Network, table: &Table) -> u64 {
    call!(bannogwy_count, net, table.as_ptr)
}

fn first_waiting(net: &Network, table: &Table) -> u64 {
    call!(bannogwy_first_waiting, net, table.as_ptr)
}

fn run(net: &Network, table: &mut Table, limit: u32) -> (u64, [u64; 2]) {
    let mut answer = [0; 2];
    (call!(bannogwy_run, net, table.as_mut_ptr, limit, answer.as_mut_ptr(), answer.len()), answer)
}

fn lookup(net: &Network, table: &Table, node: usize, destination: usize, stack: &[u8]) -> u64 {
    call!(bannogwy_lookup, net, table.as_ptr, node, destination, stack.as_ptr(), stack.len())
}

fn carry(net: &Network, table: &Table, packet: &Packet, limit: usize) -> (u64, [u64; 4]) {
    let (stack, mut answer) = (&packet.stack, [0; 4]);
    let (out, room) = (answer.as_mut_ptr(), answer.len());
    let word = call!(bannogwy_carry, net, table.as_ptr, packet.node, packet.destination, stack.as_ptr(), stack.len(), limit, out, room);
    (word, answer)
}
