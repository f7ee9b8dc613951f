//! From a net with its placement to the configuration: each wire becomes the source of its home.

use crate::configuration::{Configuration, Output, Words};
use crate::cut::{Cell, Net, Third, Wire};
use crate::place::{Home, Placement};
use crate::Fabric;

const PREV: u32 = 0x1000;
const HERE: u32 = 0x2000;
const STATE: u32 = 0x3000;
const BUS: u32 = 0x4000;

pub fn configuration(net: &Net, placement: &Placement, fabric: Fabric) -> Configuration {
    let router = Router { net, homes: &placement.homes };
    let mut stages = vec![vec![[0; 4]; fabric.columns]; placement.stages];
    for (number, (cell, home)) in net.cells.iter().zip(router.homes).enumerate() {
        stages[home.stage as usize][home.column as usize] = router.words(number as u32, cell);
    }
    let tap = |slice: &Wire| router.passed(*slice) as u16;
    let output = |(width, slices): &(u32, Vec<Wire>)| Output { width: *width, taps: slices.iter().map(tap).collect() };
    Configuration { fabric, inputs: net.inputs.clone(), outputs: net.outputs.iter().map(output).collect(), stages }
}

struct Router<'n> {
    net: &'n Net,
    homes: &'n [Home],
}

impl Router<'_> {
    fn home(&self, cell: u32) -> Home {
        self.homes[cell as usize]
    }

    fn group_of(&self, cell: u32) -> u32 {
        self.net.group_of[self.net.unit_of[cell as usize] as usize]
    }

    /// The source of a byte that comes from the stage before.
    fn passed(&self, wire: Wire) -> u32 {
        match wire {
            Wire::Const(byte) => byte.into(),
            Wire::Cell(cell) => {
                let home = self.home(cell);
                PREV + u32::from(home.column) * 16 + u32::from(home.register)
            }
            Wire::State(cell) => STATE + u32::from(self.home(cell).column) * 16,
            Wire::Bus(byte) => BUS + u32::from(byte),
            Wire::Past { .. } => unreachable!("each group was closed"),
        }
    }

    fn source(&self, reader: u32, wire: Wire) -> u32 {
        match wire {
            Wire::Cell(cell) if self.group_of(cell) == self.group_of(reader) => {
                HERE + u32::from(self.home(cell).column) * 16
            }
            _ => self.passed(wire),
        }
    }

    fn words(&self, number: u32, cell: &Cell) -> Words {
        let (third, kind, bit) = match cell.c {
            Third::None => (0, 0, 0),
            Third::Bit(wire, bit) => (self.source(number, wire), 1, u32::from(bit)),
            Third::Carry => (0, 2, 0),
        };
        let [table, mask, init] = [cell.table, cell.mask, cell.init].map(u32::from);
        let write = u32::from(self.home(number).register);
        [
            self.source(number, cell.a) << 16 | self.source(number, cell.hi),
            self.source(number, cell.lo) << 16 | third,
            table << 24 | mask << 16 | init << 8 | kind << 4 | bit,
            write << 16
                | (cell.next as u32) << 12
                | (cell.carry as u32) << 8
                | (cell.mode as u32) << 4
                | u32::from(cell.shift),
        ]
    }
}
