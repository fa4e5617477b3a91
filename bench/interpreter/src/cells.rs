//! Values, cell records, and stores of cells.

/// What a field, a name or an argument holds. Where a case carries something it has 32 bits, and the two bools are cases
/// of their own, so that a value is two machine words wherever it goes.
#[derive(Clone, Copy, Debug, PartialEq, Eq)]
pub enum Value {
    Int(i32),
    False,
    True,
    /// The offset of the first quote of the first literal with these bytes.
    Sym(u32),
    Unit,
    /// The number of a function: the basis first, then the defines in text order.
    Function(u32),
    /// The number of a cell.
    Cell(u32),
}

impl Value {
    pub fn truth(holds: bool) -> Value {
        if holds { Value::True } else { Value::False }
    }

    pub fn as_bool(self) -> Option<bool> {
        match self {
            Value::False => Some(false),
            Value::True => Some(true),
            _ => None,
        }
    }
}

pub const FIELDS: usize = 6;

/// A constructor with its fields. Fields past the used ones hold unit.
#[derive(Clone, Copy, Debug)]
pub struct Record {
    pub constructor: u16,
    pub used: u8,
    pub fields: [Value; FIELDS],
}

impl Record {
    pub fn used_fields(&self) -> &[Value] {
        &self.fields[..self.used as usize]
    }
}

/// Why a store refuses.
#[derive(Clone, Copy, Debug, PartialEq, Eq)]
pub enum StoreRefusal {
    /// 20: the number is not that of a live cell.
    DeadCell,
    /// 22: no cell is free.
    NoFreeCell,
}

/// A store of cells, as a run sees it.
pub trait CellStore {
    fn take(&mut self, record: Record) -> Result<u32, StoreRefusal>;
    fn read(&self, cell: u32) -> Result<&Record, StoreRefusal>;
    fn write(&mut self, cell: u32, record: Record) -> Result<(), StoreRefusal>;
    fn give_back(&mut self, cell: u32) -> Result<(), StoreRefusal>;
    fn capacity(&self) -> u32;
    fn live_count(&self) -> u32;

    fn free_count(&self) -> u32 {
        self.capacity() - self.live_count()
    }
}

enum Slot {
    /// Free, with the number of the next free slot; the end of the chain is past all slots.
    Free(u32),
    Live(Record),
}

/// Links its free cells: every call takes constant time.
pub struct ChainStore {
    slots: Vec<Slot>,
    first_free: u32,
    live: u32,
}

impl ChainStore {
    pub fn new(capacity: usize) -> Self {
        let slots = (1..=capacity as u32).map(Slot::Free).collect();
        ChainStore { slots, first_free: 0, live: 0 }
    }
}

impl CellStore for ChainStore {
    fn take(&mut self, record: Record) -> Result<u32, StoreRefusal> {
        let cell = self.first_free;
        let slot = self.slots.get_mut(cell as usize).ok_or(StoreRefusal::NoFreeCell)?;
        if let Slot::Free(next) = *slot {
            self.first_free = next;
        }
        *slot = Slot::Live(record);
        self.live += 1;
        Ok(cell)
    }

    fn read(&self, cell: u32) -> Result<&Record, StoreRefusal> {
        match self.slots.get(cell as usize) {
            Some(Slot::Live(record)) => Ok(record),
            _ => Err(StoreRefusal::DeadCell),
        }
    }

    fn write(&mut self, cell: u32, record: Record) -> Result<(), StoreRefusal> {
        match self.slots.get_mut(cell as usize) {
            Some(Slot::Live(old)) => *old = record,
            _ => return Err(StoreRefusal::DeadCell),
        }
        Ok(())
    }

    fn give_back(&mut self, cell: u32) -> Result<(), StoreRefusal> {
        match self.slots.get_mut(cell as usize) {
            Some(slot @ Slot::Live(_)) => *slot = Slot::Free(self.first_free),
            _ => return Err(StoreRefusal::DeadCell),
        }
        self.first_free = cell;
        self.live -= 1;
        Ok(())
    }

    fn capacity(&self) -> u32 {
        self.slots.len() as u32
    }

    fn live_count(&self) -> u32 {
        self.live
    }
}

/// How many cells a shelf keeps.
const SHELF: usize = 16;

/// Keeps up to sixteen cells that were given back, and hands these out first.
pub struct Shelf<S> {
    below: S,
    kept: [u32; SHELF],
    count: usize,
}

impl<S: CellStore> Shelf<S> {
    pub fn new(below: S) -> Self {
        Shelf { below, kept: [0; SHELF], count: 0 }
    }

    fn keeps(&self, cell: u32) -> bool {
        self.kept[..self.count].contains(&cell)
    }
}

impl<S: CellStore> CellStore for Shelf<S> {
    fn take(&mut self, record: Record) -> Result<u32, StoreRefusal> {
        if self.count == 0 {
            return self.below.take(record);
        }
        self.count -= 1;
        let cell = self.kept[self.count];
        self.below.write(cell, record)?;
        Ok(cell)
    }

    fn read(&self, cell: u32) -> Result<&Record, StoreRefusal> {
        match self.keeps(cell) {
            true => Err(StoreRefusal::DeadCell),
            false => self.below.read(cell),
        }
    }

    fn write(&mut self, cell: u32, record: Record) -> Result<(), StoreRefusal> {
        match self.keeps(cell) {
            true => Err(StoreRefusal::DeadCell),
            false => self.below.write(cell, record),
        }
    }

    fn give_back(&mut self, cell: u32) -> Result<(), StoreRefusal> {
        self.read(cell)?;
        if self.count == SHELF {
            return self.below.give_back(cell);
        }
        self.kept[self.count] = cell;
        self.count += 1;
        Ok(())
    }

    fn capacity(&self) -> u32 {
        self.below.capacity()
    }

    fn live_count(&self) -> u32 {
        self.below.live_count() - self.count as u32
    }
}
