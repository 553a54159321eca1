//! Values, locations and the store S.
//!
//! A location is a type of its own: it is not an integer and takes no
//! arithmetic.

use crate::chain::Chain;

#[derive(Clone, Copy, Debug, PartialEq, Eq, Hash)]
pub struct Location(pub u32);

#[derive(Clone, Copy, Debug, PartialEq, Eq)]
pub enum Value {
    Integer(i64),
    Truth(bool),
    Location(Location),
}

/// The location set L: the cells made by the block being run.
pub type LocationSet = Chain<Location>;

/// The store: the contents of each live cell. A cell that is not live is `None`.
#[derive(Clone, Debug)]
pub struct Store {
    cells: Vec<Option<Value>>,
    live: usize,
}

impl Store {
    /// Registers stand at cells 0 to r − 1.
    pub fn of_registers(starts: &[i64]) -> Store {
        let cells: Vec<_> = starts.iter().map(|start| Some(Value::Integer(*start))).collect();
        Store { live: cells.len(), cells }
    }

    /// How many cells are live.
    pub fn live(&self) -> usize {
        self.live
    }

    /// The locations of the live cells.
    pub fn live_locations(&self) -> Vec<Location> {
        let all = self.cells.iter().enumerate();
        all.filter(|(_, cell)| cell.is_some()).map(|(index, _)| Location(index as u32)).collect()
    }

    /// The contents of a cell, if it is live.
    pub fn contents(&self, location: Location) -> Option<Value> {
        *self.cells.get(location.0 as usize)?
    }

    /// The location the next cell gets: the number of live cells.
    pub fn next_location(&self) -> Location {
        Location(self.live as u32)
    }

    /// Make a cell at the next location, which must be free.
    pub fn make(&mut self, first: Value) {
        let index = self.live;
        if index == self.cells.len() {
            self.cells.push(None);
        }
        assert!(self.cells[index].is_none(), "the new location {index} is that of a live cell");
        self.cells[index] = Some(first);
        self.live += 1;
    }

    /// Set a live cell.
    pub fn set(&mut self, location: Location, value: Value) {
        let cell = &mut self.cells[location.0 as usize];
        assert!(cell.is_some(), "{location:?} is set but not live");
        *cell = Some(value);
    }

    /// Remove the cells of a location set.
    pub fn remove(&mut self, locations: &LocationSet) {
        for location in locations.iter() {
            let cell = &mut self.cells[location.0 as usize];
            assert!(cell.is_some(), "{location:?} is removed but not live");
            *cell = None;
            self.live -= 1;
        }
    }
}
