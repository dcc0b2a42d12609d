//! The search: layers of states, what is kept of them, the floor, and the way back.

use super::candidates::Candidate;
use super::state::{STATES, State};
use super::ways::{Invocation, Way, each_way};
use super::{Coding, STATE, write};

/// A state of a layer: its cost, and the step by which it is reached.
#[derive(Clone, Copy)]
struct Node {
    state: State,
    cost: u32,
    link: Link,
}

/// The place of the state before among those kept, and a step: candidate, size control, way.
#[derive(Clone, Copy)]
struct Link(u32);

impl Link {
    fn new(before: usize, step: u32) -> Link {
        Link((before as u32) << 16 | step)
    }

    fn step(candidate: usize, sized: bool, way: Way) -> u32 {
        (candidate as u32) << 7 | u32::from(sized) << 6 | way.packed()
    }

    fn before(self) -> usize {
        (self.0 >> 16) as usize
    }

    fn candidate(self) -> usize {
        (self.0 >> 7 & 0x1FF) as usize
    }

    fn sized(self) -> bool {
        self.0 >> 6 & 1 == 1
    }

    fn way(self) -> Way {
        Way::unpacked(self.0 & 0x3F)
    }
}

/// The way of SP and newline, which need no set.
const NO_SET: Way = Way { element: 0, designated: false, by: Invocation::Gl };

/// What the search keeps from text to text.
pub struct Search {
    over: u32,
    /// For each packed state the layer that reached it last, and its place there.
    seen: Vec<(u64, u32)>,
    /// Numbers the layers of all texts.
    layer: u64,
    kept: Vec<Node>,
    reached: Vec<Node>,
    /// The links of the states kept, layer after layer, and where each layer begins.
    links: Vec<Link>,
    begins: Vec<usize>,
}

impl Search {
    pub fn new(over: u32) -> Search {
        let (kept, reached, links, begins) = Default::default();
        Search { over, seen: vec![(0, 0); STATES], layer: 0, kept, reached, links, begins }
    }

    /// The coding of the characters, each given by its candidates.
    pub fn code(&mut self, start: State, characters: &[Vec<Candidate>]) -> Coding {
        let mut rest: usize = characters.iter().map(|candidates| shortest(candidates)).sum();
        let (mut numbers, mut states, mut dropped, mut floor) = (0, 0, 0, usize::MAX);
        self.begin(start);
        for candidates in characters {
            rest -= shortest(candidates);
            self.reach(candidates);
            numbers = numbers.max(self.numbers());
            states = states.max(1 + self.links.len() + self.reached.len());
            if let Some(cost) = self.drop_dear() {
                floor = floor.min(cost as usize + rest);
            }
            dropped += (self.reached.len() - self.kept.len()) as u64;
        }
        let bytes = self.back(characters);
        let gap = bytes.len().saturating_sub(floor);
        Coding { bytes, gap, numbers, states, dropped }
    }

    /// Before the first layer stands the start alone, at cost 0.
    fn begin(&mut self, start: State) {
        self.kept.clear();
        self.kept.push(Node { state: start, cost: 0, link: Link(0) });
        self.links.clear();
        self.begins.clear();
    }

    /// The next layer: every state that a kept one reaches by one way of writing the character.
    fn reach(&mut self, candidates: &[Candidate]) {
        self.layer += 1;
        self.reached.clear();
        let kept = std::mem::take(&mut self.kept);
        for (before, node) in kept.iter().enumerate() {
            for (n, candidate) in candidates.iter().enumerate() {
                self.step(before, node, n, candidate);
            }
        }
        self.kept = kept;
    }

    /// The numbers of the store that the layer needs: one for each state kept two or more layers
    /// back, four for each kept in the layer before and each reached in this one. The start is two
    /// layers back at the second layer.
    fn numbers(&self) -> usize {
        let older = self.begins.last().map_or(0, |before| 1 + before);
        older + STATE * (self.kept.len() + self.reached.len())
    }

    /// The states that one candidate reaches from one state.
    fn step(&mut self, before: usize, node: &Node, n: usize, candidate: &Candidate) {
        let narrow = candidate.narrow.unwrap_or(node.state.narrow());
        let sized = narrow != node.state.narrow();
        let state = node.state.with_narrow(narrow);
        let cost = node.cost + u32::from(sized) + candidate.length as u32;
        let link = |way| Link::new(before, Link::step(n, sized, way));
        match candidate.set {
            None => self.arrive(Node { state, cost, link: link(NO_SET) }),
            Some(set) => each_way(state, set, |way, state| {
                self.arrive(Node { state, cost: cost + way.length(set) as u32, link: link(way) });
            }),
        }
    }

    /// A state stands in the layer once, where it was reached first, at its least cost; of
    /// equal costs the first.
    fn arrive(&mut self, node: Node) {
        let seen = &mut self.seen[node.state.index()];
        if seen.0 != self.layer {
            *seen = (self.layer, self.reached.len() as u32);
            self.reached.push(node);
        } else if node.cost < self.reached[seen.1 as usize].cost {
            self.reached[seen.1 as usize] = node;
        }
    }

    /// Keeps what costs little enough; gives the least cost of what is dropped.
    fn drop_dear(&mut self) -> Option<u32> {
        let least = self.reached.iter().map(|node| node.cost).min().expect("a candidate");
        let dear = |node: &&Node| node.cost - least > self.over;
        let dropped = self.reached.iter().filter(dear).map(|node| node.cost).min();
        self.kept.clear();
        self.kept.extend(self.reached.iter().filter(|node| !dear(node)));
        self.begins.push(self.links.len());
        self.links.extend(self.kept.iter().map(|node| node.link));
        dropped
    }

    /// The bytes that lead to the cheapest of the states kept last, the first of equal ones.
    fn back(&self, characters: &[Vec<Candidate>]) -> Vec<u8> {
        let cheapest = self.kept.iter().enumerate().min_by_key(|(_, node)| node.cost);
        let mut place = cheapest.expect("the cheapest is kept").0;
        let mut links = Vec::with_capacity(characters.len());
        for begin in self.begins.iter().rev() {
            let link = self.links[begin + place];
            links.push(link);
            place = link.before();
        }
        let mut bytes = Vec::new();
        for (candidates, link) in characters.iter().zip(links.into_iter().rev()) {
            write::put(&mut bytes, &candidates[link.candidate()], link.sized(), link.way());
        }
        bytes
    }
}

/// The bytes of the shortest candidate's code.
fn shortest(candidates: &[Candidate]) -> usize {
    candidates.iter().map(|candidate| candidate.length).min().expect("a candidate")
}
