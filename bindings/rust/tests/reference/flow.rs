//! The fewest warm-ups as the least cost of a flow, for sheets of any size.
//!
//! As many tokens as there are units run through the steps. In each step a token either takes the edge of a unit that
//! is on, or waits in a pool of those that are off, of which each chamber has one. A unit's edge lets one token through
//! if the unit is in the upper set, and must carry one if it is in the lower set. The pool of a chamber of k units
//! carries at least k - greatest and at most k - least tokens. From step to step a token stays with its unit or goes to
//! the pool of its chamber for nothing, and goes from that pool to a unit for a warm-up. What an edge must carry earns
//! a bonus that outweighs all warm-ups.
//!
//! Once the cheapest flow is known, the cheapest one in which a unit's edge is the other way round differs from it by
//! the cheapest way back from the edge's one end to the other in the residual network.

use super::{dealt, has, Sheet};
use std::cmp::Reverse;
use std::collections::BinaryHeap;
use warm::CHAMBERS;

/// For a token on an edge that must carry it.
const BONUS: i64 = 1 << 20;

pub struct Flow {
    network: Network,
    /// By step and unit: the edge of the unit, if it is in the upper set.
    unit_edges: Vec<Vec<Option<usize>>>,
    fewest: u32,
}

impl Flow {
    pub fn new(sheet: &Sheet) -> Flow {
        let d = sheet.units as i64;
        let mut network = Network::default();
        let source = network.node();
        let mut layer = start_layer(&mut network, source, sheet);
        let mut unit_edges = Vec::new();
        let mut bonuses = 0;
        for step in &sheet.steps {
            let into = next_layer(&mut network, &layer, sheet);
            layer = Layer::new(&mut network, sheet.units);
            let mut edges = vec![None; sheet.units];
            for u in (0..sheet.units).filter(|&u| has(step.upper, u)) {
                let must = has(step.lower, u);
                bonuses += i64::from(must);
                edges[u] = Some(network.edge(into.units[u], layer.units[u], 1, if must { -BONUS } else { 0 }));
            }
            unit_edges.push(edges);
            for c in 0..CHAMBERS {
                let size = sheet.chambers[c] as i64;
                let must = (size - i64::from(step.greatest[c])).max(0);
                bonuses += must;
                network.edge(into.pools[c], layer.pools[c], must, -BONUS);
                network.edge(into.pools[c], layer.pools[c], size - i64::from(step.least[c]) - must, 0);
            }
        }
        let sink = end(&mut network, &layer, d);
        let fewest = network.send(source, sink, d) + BONUS * bonuses;
        assert!((0..BONUS / 2).contains(&fewest), "a flow must exist for a sheet that passes the checks");
        Flow { network, unit_edges, fewest: fewest as u32 }
    }

    /// The least total of any feasible plan.
    pub fn fewest(&self) -> u32 {
        self.fewest
    }

    /// The least total of any feasible plan in which unit `u` is on (or off) in a step, counted from 0; none if there
    /// is no such plan.
    pub fn cheapest(&self, step: usize, u: usize, on: bool) -> Option<u32> {
        let Some(edge) = self.unit_edges[step][u] else {
            return if on { None } else { Some(self.fewest) };
        };
        let edges = &self.network.edges;
        let (start, end, cost) = (edges[edge ^ 1].to, edges[edge].to, edges[edge].cost);
        let carries = edges[edge].room == 0;
        if carries == on {
            return Some(self.fewest);
        }
        // Off: the token leaves the edge and takes another way to its end. On: a token comes, and the flow makes up for
        // it from the end back to the start.
        let more =
            if carries { self.network.shortest(start, end)? - cost } else { self.network.shortest(end, start)? + cost };
        (more < BONUS / 2).then(|| self.fewest + more as u32)
    }
}

/// The nodes of a step, before or after its edges.
struct Layer {
    units: Vec<usize>,
    pools: [usize; CHAMBERS],
}

impl Layer {
    fn new(network: &mut Network, units: usize) -> Layer {
        Layer { units: (0..units).map(|_| network.node()).collect(), pools: [0; CHAMBERS].map(|_| network.node()) }
    }
}

/// The tokens before the first step: one on each unit of the start set, the others in the pools.
fn start_layer(network: &mut Network, source: usize, sheet: &Sheet) -> Layer {
    let layer = Layer::new(network, sheet.units);
    for u in (0..sheet.units).filter(|&u| has(sheet.start, u)) {
        network.edge(source, layer.units[u], 1, 0);
    }
    for (own, pool) in dealt(sheet.chambers).into_iter().zip(layer.pools) {
        network.edge(source, pool, i64::from((own & !sheet.start).count_ones()), 0);
    }
    layer
}

/// From a step to the next one: a warm-up goes from the pool of a chamber to a unit of it.
fn next_layer(network: &mut Network, from: &Layer, sheet: &Sheet) -> Layer {
    let to = Layer::new(network, sheet.units);
    for (c, own) in dealt(sheet.chambers).into_iter().enumerate() {
        for u in (0..sheet.units).filter(|&u| has(own, u)) {
            network.edge(from.units[u], to.units[u], 1, 0);
            network.edge(from.units[u], to.pools[c], 1, 0);
            network.edge(from.pools[c], to.units[u], 1, 1);
        }
        network.edge(from.pools[c], to.pools[c], sheet.chambers[c] as i64, 0);
    }
    to
}

fn end(network: &mut Network, last: &Layer, d: i64) -> usize {
    let sink = network.node();
    for &unit in &last.units {
        network.edge(unit, sink, 1, 0);
    }
    for pool in last.pools {
        network.edge(pool, sink, d, 0);
    }
    sink
}

/// Edge `e` and its reverse `e ^ 1` are made together: what one carries is the room of the other.
struct Edge {
    to: usize,
    room: i64,
    cost: i64,
}

/// A network with a flow. Edges are made from earlier nodes to later ones.
#[derive(Default)]
struct Network {
    edges: Vec<Edge>,
    leaving: Vec<Vec<usize>>,
    /// For each edge with room, cost + height of its start - height of its end is not negative.
    heights: Vec<i64>,
}

impl Network {
    fn node(&mut self) -> usize {
        self.leaving.push(Vec::new());
        self.leaving.len() - 1
    }

    fn edge(&mut self, from: usize, to: usize, room: i64, cost: i64) -> usize {
        assert!(from < to && room >= 0);
        let edge = self.edges.len();
        self.edges.push(Edge { to, room, cost });
        self.edges.push(Edge { to: from, room: 0, cost: -cost });
        self.leaving[from].push(edge);
        self.leaving[to].push(edge + 1);
        edge
    }

    /// Sends so many tokens as cheaply as possible, one shortest path after the other. Returns the cost.
    fn send(&mut self, source: usize, sink: usize, tokens: i64) -> i64 {
        self.set_heights();
        let mut left = tokens;
        let mut cost = 0;
        while left > 0 {
            let search = self.search(source, sink, i64::MAX);
            let distance = search.distances[sink];
            assert!(distance < i64::MAX, "there is a way for every token");
            for (height, &reached) in self.heights.iter_mut().zip(&search.distances) {
                *height += reached.min(distance);
            }
            let path = search.path(self, sink);
            let sent = path.iter().map(|&edge| self.edges[edge].room).min().unwrap().min(left);
            for edge in path {
                self.edges[edge].room -= sent;
                self.edges[edge ^ 1].room += sent;
                cost += sent * self.edges[edge].cost;
            }
            left -= sent;
        }
        cost
    }

    /// Before anything flows, the edges with room go from earlier nodes to later ones.
    fn set_heights(&mut self) {
        self.heights = vec![0; self.leaving.len()];
        for from in 0..self.leaving.len() {
            for &edge in &self.leaving[from] {
                let Edge { to, room, cost } = self.edges[edge];
                if room > 0 {
                    self.heights[to] = self.heights[to].min(self.heights[from] + cost);
                }
            }
        }
    }

    /// The cost of the cheapest way from one node to another over edges with room, if there is one that costs less than
    /// a bonus.
    fn shortest(&self, from: usize, to: usize) -> Option<i64> {
        let climb = self.heights[from] - self.heights[to];
        let limit = BONUS + climb;
        let distance = self.search(from, to, limit).distances[to];
        (distance < limit).then(|| distance - climb)
    }

    /// Dijkstra's search with the costs that the heights make non-negative. Ends at the target, or beyond the limit.
    fn search(&self, from: usize, target: usize, limit: i64) -> Search {
        let nodes = self.leaving.len();
        let mut search = Search { distances: vec![i64::MAX; nodes], arrived_by: vec![usize::MAX; nodes] };
        let mut waiting = BinaryHeap::from([Reverse((0, from))]);
        search.distances[from] = 0;
        while let Some(Reverse((distance, node))) = waiting.pop() {
            if node == target || distance > limit {
                break;
            }
            if distance > search.distances[node] {
                continue;
            }
            for &edge in &self.leaving[node] {
                let Edge { to, room, cost } = self.edges[edge];
                if room == 0 {
                    continue;
                }
                let step = cost + self.heights[node] - self.heights[to];
                debug_assert!(step >= 0);
                if distance + step < search.distances[to] {
                    search.distances[to] = distance + step;
                    search.arrived_by[to] = edge;
                    waiting.push(Reverse((distance + step, to)));
                }
            }
        }
        search
    }
}

struct Search {
    distances: Vec<i64>,
    arrived_by: Vec<usize>,
}

impl Search {
    /// The edges to a node that was reached, last edge first.
    fn path(&self, network: &Network, target: usize) -> Vec<usize> {
        let mut path = Vec::new();
        let mut node = target;
        while self.arrived_by[node] != usize::MAX {
            let edge = self.arrived_by[node];
            path.push(edge);
            node = network.edges[edge ^ 1].to;
        }
        path
    }
}
