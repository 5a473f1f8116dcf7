//! What runs are lent.

use stage2_reference::{self as reference, Ran, Rooms, DEAD_ROW, FUEL_LIMIT, NODE_ROW};

use crate::{run, Node};

/// Rows and rooms that are plenty for any text. Nothing is done to them between one
/// run and the next, so that times can be compared.
pub struct Lent {
    nodes: Vec<Node>,
    dead: Vec<u8>,
    pub rooms: Rooms,
}

impl Default for Lent {
    fn default() -> Lent {
        Lent {
            nodes: vec![Node::default(); NODE_ROW],
            dead: vec![0; DEAD_ROW],
            rooms: Rooms::with_outputs(65_536, 65_536),
        }
    }
}

impl Lent {
    /// The proved run of a text.
    pub fn run_proved(&mut self, text: &[u8]) -> Ran {
        let Lent { nodes, dead, rooms } = self;
        run(text, FUEL_LIMIT, nodes, dead, rooms)
    }

    /// The reference's.
    pub fn run_reference(&mut self, text: &[u8]) -> Ran {
        reference::run(text, FUEL_LIMIT, NODE_ROW, DEAD_ROW, &mut self.rooms)
    }
}
