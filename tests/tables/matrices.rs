//! Matrices of numbers.

use lrtable::sparsevec::SparseVec;
use std::test::Fail;

#[test]
fn numbers_by_row_and_column(rt: HostRuntime) -> Result<(), Fail> {
    let matrix = SparseVec::from(rt.alloc(), [0, 1, 2, 3, 0, 5].as_slice(), 0, 3)?;
    for (row, col, number) in [
        (0, 0, Some(0)),
        (0, 2, Some(2)),
        (1, 0, Some(3)),
        (1, 2, Some(5)),
        (0, 3, None),
        (2, 0, None),
        (usize::MAX, 0, None),
        (0, usize::MAX, None),
    ] {
        assert_eq!(rt; matrix.get(row, col), number, "{row} {col}");
    }
    Ok(())
}
