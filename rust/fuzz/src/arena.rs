//! Scripts as nodes that know their parts, laid out as rows in any legal order.

use std::collections::VecDeque;

use crate::prng::Prng;

/// The number of a node in its arena; not the number of a row.
#[derive(Clone, Copy, Debug, PartialEq, Eq)]
pub struct Node(pub usize);

#[derive(Clone, Copy, Debug, PartialEq, Eq)]
pub enum Field {
    Unused,
    Number(i32),
    Link(Node),
    /// The row of a loop, known only when the rows are laid out.
    LoopRow(Node),
}

/// The order in which rows are laid out; every link's row is lower in each.
#[derive(Clone, Copy, Debug, PartialEq, Eq)]
pub enum Order {
    /// Any row whose parts are all laid out, by chance.
    Random,
    /// The row that became ready last.
    Newest,
    /// The row that became ready first: leaves first, the script last.
    Oldest,
}

impl Order {
    pub fn any(random: &mut Prng) -> Order {
        random.pick(&[Order::Random, Order::Random, Order::Newest, Order::Oldest])
    }
}

#[derive(Clone, Debug, Default)]
pub struct Arena {
    nodes: Vec<(i32, [Field; 3])>,
}

impl Arena {
    pub fn len(&self) -> usize {
        self.nodes.len()
    }

    pub fn is_empty(&self) -> bool {
        self.nodes.is_empty()
    }

    pub fn add(&mut self, kind: i32, fields: [Field; 3]) -> Node {
        self.nodes.push((kind, fields));
        Node(self.nodes.len() - 1)
    }

    /// A node to be filled by `set`: a loop is named by marks in its own body.
    pub fn reserve(&mut self) -> Node {
        self.add(0, [Field::Unused; 3])
    }

    pub fn set(&mut self, node: Node, kind: i32, fields: [Field; 3]) {
        self.nodes[node.0] = (kind, fields);
    }

    pub fn constant(&mut self, value: i32) -> Node {
        self.add(1, [Field::Number(value), Field::Unused, Field::Unused])
    }

    pub fn variable(&mut self, number: i32) -> Node {
        self.add(2, [Field::Number(number), Field::Unused, Field::Unused])
    }

    pub fn mark(&mut self, of_loop: Node) -> Node {
        self.add(9, [Field::LoopRow(of_loop), Field::Unused, Field::Unused])
    }

    pub fn leaf(&mut self, kind: i32) -> Node {
        self.add(kind, [Field::Unused; 3])
    }

    pub fn one(&mut self, kind: i32, part: Node) -> Node {
        self.add(kind, [Field::Link(part), Field::Unused, Field::Unused])
    }

    pub fn two(&mut self, kind: i32, first: Node, second: Node) -> Node {
        self.add(
            kind,
            [Field::Link(first), Field::Link(second), Field::Unused],
        )
    }

    pub fn three(&mut self, kind: i32, first: Node, second: Node, third: Node) -> Node {
        self.add(kind, [first, second, third].map(Field::Link))
    }

    pub fn assign(&mut self, variable: i32, assigned: Node) -> Node {
        self.add(
            33,
            [
                Field::Number(variable),
                Field::Link(assigned),
                Field::Unused,
            ],
        )
    }

    /// Regroups what nodes of this kind join, so that none has another one as its
    /// first part.
    pub fn group_to_the_right(&mut self, kind: i32) {
        let mut is_changed = true;
        while is_changed {
            is_changed = false;
            for node in (0..self.len()).map(Node) {
                while let Some((first, [a, b, c])) = self.grouped_to_the_left(kind, node) {
                    self.set(first, kind, [b, c, Field::Unused]);
                    self.set(node, kind, [a, Field::Link(first), Field::Unused]);
                    is_changed = true;
                }
            }
        }
    }

    /// Where the node joins a node of its kind, which joins two parts, and a third
    /// part: that node and the three.
    fn grouped_to_the_left(&self, kind: i32, node: Node) -> Option<(Node, [Field; 3])> {
        let (Field::Link(first), c) = self.joined(kind, node)? else {
            return None;
        };
        let (a, b) = self.joined(kind, first)?;
        Some((first, [a, b, c]))
    }

    fn joined(&self, kind: i32, node: Node) -> Option<(Field, Field)> {
        let (found, [first, second, _]) = self.nodes[node.0];
        (found == kind).then_some((first, second))
    }

    fn links(&self, node: Node) -> Vec<Node> {
        let fields = self.nodes[node.0].1;
        let link = |field| match field {
            Field::Link(part) => Some(part),
            _ => None,
        };
        fields.into_iter().filter_map(link).collect()
    }

    /// The words of all rows, laid out in the order given.
    pub fn words(&self, order: Order, random: &mut Prng) -> Vec<i32> {
        let sequence = self.legal_sequence(order, random);
        let mut row_of = vec![0; self.len()];
        for (row, node) in sequence.iter().enumerate() {
            row_of[node.0] = row as i32;
        }
        let mut words = Vec::with_capacity(4 * self.len());
        for node in sequence {
            let (kind, fields) = self.nodes[node.0];
            words.push(kind);
            words.extend(fields.map(|field| match field {
                Field::Unused => 0,
                Field::Number(number) => number,
                Field::Link(part) | Field::LoopRow(part) => row_of[part.0],
            }));
        }
        words
    }

    /// All nodes, each after the nodes it links to.
    fn legal_sequence(&self, order: Order, random: &mut Prng) -> Vec<Node> {
        let mut parent = vec![None; self.len()];
        let mut parts_left = vec![0; self.len()];
        for node in (0..self.len()).map(Node) {
            for part in self.links(node) {
                parent[part.0] = Some(node);
                parts_left[node.0] += 1;
            }
        }
        let is_leaf = |node: &Node| parts_left[node.0] == 0;
        let mut ready: VecDeque<Node> = (0..self.len()).map(Node).filter(is_leaf).collect();
        let mut sequence = Vec::with_capacity(self.len());
        while let Some(node) = next_ready(&mut ready, order, random) {
            sequence.push(node);
            if let Some(parent) = parent[node.0] {
                parts_left[parent.0] -= 1;
                if parts_left[parent.0] == 0 {
                    ready.push_back(parent);
                }
            }
        }
        assert_eq!(sequence.len(), self.len(), "the nodes form trees");
        sequence
    }
}

fn next_ready(ready: &mut VecDeque<Node>, order: Order, random: &mut Prng) -> Option<Node> {
    match order {
        Order::Newest => ready.pop_back(),
        Order::Oldest => ready.pop_front(),
        Order::Random if ready.is_empty() => None,
        Order::Random => {
            let place = random.below(ready.len());
            ready.swap_remove_back(place)
        }
    }
}
