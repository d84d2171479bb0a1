//! Each entry of a table and each field of the record set to the numbers at the ends of its width, and beside its own.
//! What that breaks hangs on all the rest, so that here only the model tells, in both its wordings.

use crate::asked::Asked;
use compare::calls::Side;

/// A number of some width.
trait Entry: Copy {
    /// One more, one less, 0, 1 and the greatest, with one more than the greatest being 0.
    fn edges(self) -> [Self; 5];
}

macro_rules! entries {
    ($($width:ty)*) => {
        $(impl Entry for $width {
            fn edges(self) -> [$width; 5] {
                [self.wrapping_add(1), self.wrapping_sub(1), 0, 1, <$width>::MAX]
            }
        })*
    };
}

entries!(u8 u16 u32 u64);

/// Asks about the base with one number set to each of its edges.
fn set<T: Entry>(asked: &mut Asked, number: impl Fn(&mut Side) -> &mut T) {
    let old = *number(&mut asked.base);
    for new in old.edges() {
        asked.judged(|side| *number(side) = new);
    }
}

/// The four costs of a cell, its entry in each other table, and the list at the cell's number.
pub fn set_entries(asked: &mut Asked, cell: usize) {
    for at in 4 * cell..4 * cell + 4 {
        set(asked, |side| &mut side.tables.plan[at]);
    }
    set(asked, |side| &mut side.tables.g[cell]);
    set(asked, |side| &mut side.tables.rhs[cell]);
    set(asked, |side| &mut side.tables.parent[cell]);
    set(asked, |side| &mut side.tables.k1[cell]);
    set(asked, |side| &mut side.tables.k2[cell]);
    set(asked, |side| &mut side.tables.place[cell]);
    set(asked, |side| &mut side.tables.list[cell]);
}

/// The fields of the record in their order. The edges are those of 64 bits, which a narrower field cuts to its own.
pub fn set_record(asked: &mut Asked) {
    for (field, old) in asked.base.session.numbers().into_iter().enumerate() {
        for new in old.edges() {
            asked.judged(|side| side.session.set(field, new));
        }
    }
}
