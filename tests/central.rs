// A central shortest-path calculation for the trials, apart from the core: least costs, fewest arcs and rows by Dijkstra's algorithm, and a search for a
// route of a given cost.

/// The largest number of nodes.
pub const MOST_NODES: u32 = 32;
/// Stands for no node: the predecessor of the origin, and where there is no route.
pub const NOBODY: u32 = 32;

pub fn bit(node: u32) -> u32 {
    1 << node
}

pub fn has(list: u32, node: u32) -> bool {
    list & bit(node) != 0
}

/// All pairs of 32 nodes, sender and receiver.
pub fn pairs() -> impl Iterator<Item = (u32, u32)> {
    (0..MOST_NODES).flat_map(|s| (0..MOST_NODES).map(move |r| (s, r)))
}

/// A row. Without a route the list is 0; there and at the origin nobody is the predecessor.
#[derive(Clone, Copy, PartialEq)]
pub struct Row {
    pub label: u32,
    pub predecessor: u32,
    pub list: u32,
    pub hops: u32,
}

/// The costs of arcs, by sender and receiver; 0 where there is no arc.
pub struct Costs([[u32; 32]; 32]);

impl Costs {
    pub fn none() -> Costs {
        Costs([[0; 32]; 32])
    }

    pub fn get(&self, sender: u32, receiver: u32) -> u32 {
        self.0[sender as usize][receiver as usize]
    }

    pub fn set(&mut self, sender: u32, receiver: u32, cost: u32) {
        self.0[sender as usize][receiver as usize] = cost;
    }

    /// The arcs: word r has bit s for an arc from s to r.
    pub fn arcs(&self) -> [u32; 32] {
        let mut arcs = [0; 32];
        for (s, r) in pairs().filter(|&(s, r)| self.get(s, r) != 0) {
            arcs[r as usize] |= bit(s);
        }
        arcs
    }
}

/// What the central calculation gives by node: the least cost of a route, and the row.
pub struct Settled {
    least: [u32; 32],
    rows: [Row; 32],
}

impl Settled {
    /// Stands for no route: more than any route costs.
    const NONE: u32 = 4_000_000;

    /// Dijkstra's algorithm. The predecessor is, of the givers, the one with the fewest arcs, then the lowest; the list has the nodes of the route
    /// along predecessors, and the hops are its arcs.
    pub fn calculate(costs: &Costs, origin: u32) -> Settled {
        let mut settled = Settled { least: [Settled::NONE; 32], rows: [Row { label: 0, predecessor: NOBODY, list: 0, hops: 0 }; 32] };
        settled.least[origin as usize] = 0;
        let mut left: Vec<u32> = (0..MOST_NODES).collect();
        while let Some(y) = left.iter().copied().min_by_key(|&y| settled.least(y)) {
            if settled.least(y) == Settled::NONE {
                break;
            }
            left.retain(|&x| x != y);
            let label = settled.least(y);
            settled.rows[y as usize] = match settled.givers(costs, y).min() {
                Some((arcs, s)) => Row { label, predecessor: s, list: settled.row(s).list | bit(y), hops: arcs + 1 },
                None => Row { label, predecessor: NOBODY, list: bit(y), hops: 0 },
            };
            for r in 0..MOST_NODES {
                let way = settled.way(costs, y, r).unwrap_or(Settled::NONE);
                settled.least[r as usize] = settled.least(r).min(way);
            }
        }
        settled
    }

    pub fn least(&self, node: u32) -> u32 {
        self.least[node as usize]
    }

    pub fn row(&self, node: u32) -> Row {
        self.rows[node as usize]
    }

    /// The senders that give a node its least cost, ascending: the fewest arcs of a route of least cost to the sender, and the sender.
    pub fn givers<'a>(&'a self, costs: &'a Costs, node: u32) -> impl Iterator<Item = (u32, u32)> + 'a {
        let gives = move |&s: &u32| self.way(costs, s, node) == Some(self.least(node));
        (0..MOST_NODES).filter(gives).map(|s| (self.row(s).hops, s))
    }

    /// The least cost to the sender and the arc's cost together.
    fn way(&self, costs: &Costs, sender: u32, receiver: u32) -> Option<u32> {
        let (before, cost) = (self.least(sender), costs.get(sender, receiver));
        (before < Settled::NONE && cost != 0).then(|| before + cost)
    }
}

/// A search for a route of a given cost, with the steps that are left.
pub struct Search<'a> {
    costs: &'a Costs,
    settled: &'a Settled,
    steps: u32,
}

impl Search<'_> {
    /// Whether a route to the node that meets no node twice has exactly this cost, first among the nodes of a list, then among all. `None` where the
    /// steps did not suffice.
    pub fn decide(costs: &Costs, settled: &Settled, node: u32, cost: u32, list: u32, steps: u32) -> Option<bool> {
        let mut search = Search { costs, settled, steps };
        if search.goes_back(!list | bit(node), node, cost) {
            return Some(true);
        }
        search.steps = steps;
        let found = search.goes_back(bit(node), node, cost);
        (found || search.steps != 0).then_some(found)
    }

    /// Whether a way back from the node, by nodes that are not barred, has the cost that is left.
    fn goes_back(&mut self, barred: u32, node: u32, left: u32) -> bool {
        for sender in 0..MOST_NODES {
            if self.steps == 0 {
                return false;
            }
            let before = self.before(barred, sender, node, left);
            if before == Some(0) {
                return true;
            }
            self.steps -= 1;
            if before.is_some_and(|before| self.goes_back(barred | bit(sender), sender, before)) {
                return true;
            }
        }
        false
    }

    /// The cost that is left before the sender, where the sender may be next on the way back: no walk to a node costs less than its least cost, and
    /// a route starts at the origin.
    fn before(&self, barred: u32, sender: u32, node: u32, left: u32) -> Option<u32> {
        let (cost, least) = (self.costs.get(sender, node), self.settled.least(sender));
        if cost == 0 || left < cost || has(barred, sender) {
            return None;
        }
        let before = left - cost;
        (least <= before && (least != 0 || before == 0)).then_some(before)
    }
}
