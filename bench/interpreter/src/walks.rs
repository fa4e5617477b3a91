//! Walks over data in a store. Each keeps what it has still to visit in a list of its own, and recurses nowhere.

use crate::cells::{CellStore, StoreRefusal, Value};

/// The cells still to visit. It lives as long as a run, so that a walk allocates nothing in the long run.
pub type Work = Vec<u32>;

fn put_cells(fields: &[Value], work: &mut Work) {
    for &field in fields {
        if let Value::Cell(cell) = field {
            work.push(cell);
        }
    }
}

/// How many cells a value has.
pub fn size<S: CellStore>(store: &S, value: Value, work: &mut Work) -> Result<u32, StoreRefusal> {
    let mut count = 0;
    put_cells(&[value], work);
    while let Some(cell) = work.pop() {
        count += 1;
        put_cells(store.read(cell)?.used_fields(), work);
    }
    Ok(count)
}

/// Gives back the cells of a value, and answers how many these were.
pub fn drop_value<S: CellStore>(store: &mut S, value: Value, work: &mut Work) -> Result<u32, StoreRefusal> {
    let mut count = 0;
    put_cells(&[value], work);
    while let Some(cell) = work.pop() {
        count += 1;
        put_cells(store.read(cell)?.used_fields(), work);
        store.give_back(cell)?;
    }
    Ok(count)
}

/// Copies a value deep, and answers the copy and how many cells it took. With too few free cells nothing is copied.
pub fn copy_value<S: CellStore>(store: &mut S, value: Value, work: &mut Work) -> Result<(Value, u32), StoreRefusal> {
    let Value::Cell(cell) = value else { return Ok((value, 0)) };
    // A value has no more cells than are live, so it is only counted where fewer are free than live.
    if store.free_count() < store.live_count() && store.free_count() < size(store, value, work)? {
        return Err(StoreRefusal::NoFreeCell);
    }
    let record = *store.read(cell)?;
    let copy = store.take(record)?;
    let mut count = 1;
    work.push(copy);
    // The cells on the list are new ones, whose fields still name the old data.
    while let Some(cell) = work.pop() {
        let mut record = *store.read(cell)?;
        for field in &mut record.fields[..record.used as usize] {
            if let Value::Cell(old) = *field {
                let below = *store.read(old)?;
                let new = store.take(below)?;
                count += 1;
                work.push(new);
                *field = Value::Cell(new);
            }
        }
        store.write(cell, record)?;
    }
    Ok((Value::Cell(copy), count))
}
