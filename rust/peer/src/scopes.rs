//! In which loops' bodies all uses of a row stand. The loops around a loop's body are
//! the loop itself and those around its row, so that loops form a tree; and the loops
//! that two uses have in common are those up from where the ways from both meet. With
//! jumps of several lengths up the tree no way takes many steps.

/// The innermost of the loops, by its row.
pub type Scope = u16;

const NOT_REACHED: Scope = Scope::MAX;

/// A loop in the tree.
#[derive(Clone, Copy)]
pub struct Node {
    /// How many loops are around its body; 0 for what is no loop, or not entered.
    depth: u16,
    parent: Scope,
    jump: Scope,
}

pub struct Scopes<'a> {
    /// Of each row, by the uses met so far.
    rows: &'a mut [Scope],
    /// By their rows; the last one is the root, no loop at all.
    nodes: &'a mut [Node],
}

impl Scopes<'_> {
    pub const NOT_REACHED: Scope = NOT_REACHED;

    /// No loop, in a tree whose root is in this place.
    pub fn no_loop(root: usize) -> Node {
        let root = root as Scope;
        Node {
            depth: 0,
            parent: root,
            jump: root,
        }
    }

    /// Of rows of which the last alone is reached, and as many nodes and one more, all
    /// of them no loops.
    pub fn new<'a>(rows: &'a mut [Scope], nodes: &'a mut [Node]) -> Scopes<'a> {
        let last = rows.len() - 1;
        rows[last] = rows.len() as Scope;
        Scopes { rows, nodes }
    }

    /// The scope of a row all of whose uses are met; nothing where there is none.
    #[inline(always)]
    pub fn of(&self, row: usize) -> Option<Scope> {
        Some(self.rows[row]).filter(|scope| *scope != NOT_REACHED)
    }

    #[inline(always)]
    fn node(&self, scope: Scope) -> Node {
        self.nodes[usize::from(scope)]
    }

    /// A use of a row in this scope.
    #[inline(always)]
    pub fn meet(&mut self, row: usize, scope: Scope) {
        let before = self.rows[row];
        if before == NOT_REACHED {
            self.rows[row] = scope;
        } else if before != scope {
            self.rows[row] = self.common(before, scope);
        }
    }

    /// The scope of the body of a loop in this scope.
    pub fn enter(&mut self, row: usize, scope: Scope) -> Scope {
        let outer = self.node(scope);
        let far = self.node(outer.jump);
        let farther = self.node(far.jump);
        let is_as_long = outer.depth - far.depth == far.depth - farther.depth;
        self.nodes[row] = Node {
            depth: outer.depth + 1,
            parent: scope,
            jump: if is_as_long { far.jump } else { scope },
        };
        row as Scope
    }

    /// Whether the body of this row is around the scope.
    pub fn is_inside(&self, scope: Scope, row: usize) -> bool {
        let depth = self.nodes[row].depth;
        depth > 0 && usize::from(self.up_to(depth, scope)) == row
    }

    /// The way up from a scope until so few loops are left.
    fn up_to(&self, depth: u16, mut scope: Scope) -> Scope {
        loop {
            let node = self.node(scope);
            if node.depth <= depth {
                return scope;
            }
            scope = if self.node(node.jump).depth >= depth {
                node.jump
            } else {
                node.parent
            };
        }
    }

    fn common(&self, first: Scope, second: Scope) -> Scope {
        let depth = self.node(first).depth.min(self.node(second).depth);
        let (mut first, mut second) = (self.up_to(depth, first), self.up_to(depth, second));
        while first != second {
            let (one, other) = (self.node(first), self.node(second));
            (first, second) = if one.jump == other.jump {
                (one.parent, other.parent)
            } else {
                (one.jump, other.jump)
            };
        }
        first
    }
}
