// A call on a network and a table that are lent: the thirteen arguments that each such call begins with, and then its own.
macro_rules! call {
    ($lent:ident, $name:ident $(, $more:expr)*) => {
        $name(
            $lent.n, $lent.p, $lent.h,
            $lent.links.pointer(), $lent.links.len(), $lent.functions.pointer(), $lent.functions.len(),
            $lent.cost.pointer(), $lent.cost.len(), $lent.way.pointer(), $lent.way.len(), $lent.waiting.pointer(), $lent.waiting.len()
            $(, $more)*
        )
    };
}
