//! The greedy rule: stages are filled one after the other, and each group goes to the least columns where it fits.

use crate::cut::{Net, Wire};
use crate::plant::{self, Plant};
use crate::{Fabric, Refusal};
use std::cmp::Reverse;
use std::collections::{BTreeSet, BinaryHeap, HashMap};

/// Where a cell stands. Register 0 is none.
#[derive(Clone, Copy, Default)]
pub struct Home {
    pub stage: u32,
    pub column: u8,
    pub register: u8,
}

pub struct Placement {
    pub homes: Vec<Home>,
    pub stages: usize,
}

/// Lists one after the other: those of number i stand from the i-th start up to the next.
struct Lists {
    starts: Vec<u32>,
    all: Vec<u32>,
}

impl Lists {
    /// The lists of what belongs to each number, in the order given.
    fn new(count: usize, pairs: impl Iterator<Item = (u32, u32)> + Clone) -> Self {
        let mut starts = vec![0; count + 1];
        for (owner, _) in pairs.clone() {
            starts[owner as usize + 1] += 1;
        }
        for place in 0..count {
            starts[place + 1] += starts[place];
        }
        let mut all = vec![0; starts[count] as usize];
        let mut ends = starts.clone();
        for (owner, item) in pairs {
            all[ends[owner as usize] as usize] = item;
            ends[owner as usize] += 1;
        }
        Lists { starts, all }
    }

    fn of(&self, number: u32) -> &[u32] {
        &self.all[self.starts[number as usize] as usize..self.starts[number as usize + 1] as usize]
    }
}

/// The groups by the numbers of their last units; a number that ends no group has no cells.
struct Groups {
    /// The cells of each group in the order of its columns.
    cells: Lists,
    /// The groups that read each group.
    readers: Lists,
    /// How many groups each group waits for.
    waits: Vec<u32>,
    /// How often each cell is read by other groups or shown by an output.
    uses: Vec<u32>,
    /// Groups of one class need columns and registers in the same way.
    class_of: Vec<usize>,
    classes: Vec<Class>,
}

#[derive(Clone, Copy, PartialEq, Eq, Hash)]
struct Class {
    cells: u32,
    /// A bit for each cell that needs a register.
    registers: u64,
}

fn group_of(net: &Net, cell: u32) -> u32 {
    net.group_of[net.unit_of[cell as usize] as usize]
}

/// The cells of other groups that a cell reads.
fn reads(net: &Net, cell: u32) -> impl Iterator<Item = u32> + '_ {
    let group = group_of(net, cell);
    net.cells[cell as usize].wires().filter_map(move |wire| match wire {
        Wire::Cell(read) if group_of(net, read) != group => Some(read),
        _ => None,
    })
}

impl Groups {
    fn new(net: &Net) -> Self {
        let units = net.units();
        let all = 0..net.cells.len() as u32;
        let cells = Lists::new(units, all.clone().map(|cell| (group_of(net, cell), cell)));
        let mut uses = vec![0; net.cells.len()];
        for wire in net.outputs.iter().flat_map(|(_, slices)| slices) {
            if let Wire::Cell(cell) = wire {
                uses[*cell as usize] += 1;
            }
        }
        let mut edges = Vec::new();
        let mut waits = vec![0; units];
        let mut last_reader = vec![u32::MAX; units];
        for cell in cells.all.iter() {
            let reader = group_of(net, *cell);
            for read in reads(net, *cell) {
                uses[read as usize] += 1;
                let group = group_of(net, read);
                if last_reader[group as usize] != reader {
                    last_reader[group as usize] = reader;
                    waits[reader as usize] += 1;
                    edges.push((group, reader));
                }
            }
        }
        let readers = Lists::new(units, edges.iter().copied());
        let mut groups =
            Groups { cells, readers, waits, uses, class_of: Vec::with_capacity(units), classes: Vec::new() };
        groups.classify(units);
        groups
    }

    fn classify(&mut self, units: usize) {
        let mut numbers = HashMap::new();
        for group in 0..units as u32 {
            let cells = self.cells.of(group);
            let needs = cells.iter().take(64).enumerate().filter(|(_, cell)| self.uses[**cell as usize] > 0);
            let class =
                Class { cells: cells.len() as u32, registers: needs.fold(0, |bits, (place, _)| bits | 1 << place) };
            let number = *numbers.entry(class).or_insert(self.classes.len());
            if number == self.classes.len() {
                self.classes.push(class);
            }
            self.class_of.push(number);
        }
    }
}

/// The columns of the stage that is being filled, and their registers.
struct Columns {
    fabric: Fabric,
    /// A bit for each column without a cell in this stage.
    free: u64,
    /// A bit for each column that has a register for one more cell.
    open: u64,
    /// A bit for each register that a live cell has.
    taken: Vec<u32>,
}

impl Columns {
    fn new(fabric: Fabric) -> Self {
        let all = (1 << fabric.columns) - 1;
        Columns { fabric, free: all, open: all, taken: vec![1; fabric.columns] }
    }

    /// The least column at which a group of the class fits.
    fn fit(&self, class: Class) -> Option<u32> {
        if class.cells as usize > self.fabric.columns {
            return None;
        }
        let mut fits = u64::MAX;
        for place in 0..class.cells {
            let wanted = if class.registers >> place & 1 == 1 { self.free & self.open } else { self.free };
            fits &= wanted >> place;
        }
        (fits != 0).then(|| fits.trailing_zeros())
    }

    /// Takes the column for a cell, and its least register where it needs one.
    fn take(&mut self, column: usize, needs: bool) -> u8 {
        self.free &= !(1 << column);
        if !needs {
            return 0;
        }
        let register = self.taken[column].trailing_ones();
        self.taken[column] |= 1 << register;
        if self.taken[column].trailing_ones() as usize == self.fabric.registers {
            self.open &= !(1 << column);
        }
        register as u8
    }

    fn release(&mut self, home: Home) {
        self.taken[home.column as usize] &= !(1 << home.register);
        self.open |= 1 << home.column;
    }
}

struct Placer<'n> {
    net: &'n Net,
    groups: Groups,
    columns: Columns,
    placement: Placement,
    /// The groups of each class that can be placed in this stage.
    ready: Vec<BTreeSet<u32>>,
    /// The groups that can be placed from the next stage on.
    later: Vec<u32>,
}

pub fn place(net: &Net, fabric: Fabric) -> Result<Placement, Refusal> {
    let groups = Groups::new(net);
    let ready = vec![BTreeSet::new(); groups.classes.len()];
    let is_group = |group: &u32| net.group_of[*group as usize] == *group;
    let mut left = (0..net.units() as u32).filter(is_group).count();
    let later = (0..net.units() as u32).filter(is_group).filter(|group| groups.waits[*group as usize] == 0).collect();
    let placement = Placement { homes: vec![Home::default(); net.cells.len()], stages: 0 };
    let mut placer = Placer { net, groups, columns: Columns::new(fabric), placement, ready, later };
    let mut is_placed = vec![false; net.units()];
    while left > 0 {
        let placed = placer.stage();
        if placed.is_empty() {
            let least = (0..net.units() as u32).filter(is_group).find(|group| !is_placed[*group as usize]);
            return Err(Refusal::NoFit(least.expect("a group is left") as usize));
        }
        left -= placed.len();
        placed.iter().for_each(|group| is_placed[*group as usize] = true);
    }
    Ok(placer.placement)
}

impl Placer<'_> {
    /// Fills the next stage, and gives the groups that it received. A class whose turn did not fit is passed over until a
    /// register comes free.
    fn stage(&mut self) -> Vec<u32> {
        for group in std::mem::take(&mut self.later) {
            self.ready[self.groups.class_of[group as usize]].insert(group);
        }
        self.columns.free = (1 << self.columns.fabric.columns) - 1;
        let firsts =
            self.ready.iter().enumerate().filter_map(|(class, groups)| Some(Reverse((*groups.first()?, class))));
        let mut turns: BinaryHeap<_> = firsts.collect();
        let mut placed = Vec::new();
        let mut passed = Vec::new();
        while let Some(Reverse((group, class))) = turns.pop() {
            let Some(column) = self.columns.fit(self.groups.classes[class]) else {
                passed.push(class);
                continue;
            };
            placed.push(group);
            self.ready[class].remove(&group);
            passed.push(class);
            let opens = self.put(group, column as usize);
            if self.columns.free == 0 {
                break;
            }
            let again = if opens { 0 } else { passed.len() - 1 };
            for class in passed.drain(again..) {
                turns.extend(self.ready[class].range(group + 1..).next().map(|group| Reverse((*group, class))));
            }
        }
        self.placement.stages += 1;
        placed
    }

    /// Puts the group there, and tells whether a register came free.
    fn put(&mut self, group: u32, column: usize) -> bool {
        let stage = self.placement.stages as u32;
        for (place, cell) in self.groups.cells.of(group).iter().enumerate() {
            let column = column + place;
            let register = self.columns.take(column, self.groups.uses[*cell as usize] > 0);
            self.placement.homes[*cell as usize] = Home { stage, column: column as u8, register };
        }
        for reader in self.groups.readers.of(group) {
            self.groups.waits[*reader as usize] -= 1;
            if self.groups.waits[*reader as usize] == 0 {
                self.later.push(*reader);
            }
        }
        self.release_operands(group)
    }

    fn release_operands(&mut self, group: u32) -> bool {
        let mut opens = false;
        let still_read = u32::from(plant::is(Plant::RegisterFreedEarly));
        for cell in self.groups.cells.of(group) {
            for read in reads(self.net, *cell) {
                self.groups.uses[read as usize] -= 1;
                if self.groups.uses[read as usize] <= still_read {
                    self.columns.release(self.placement.homes[read as usize]);
                    opens = true;
                }
            }
        }
        opens
    }
}
