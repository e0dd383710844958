//! From regular expressions to a deterministic automaton, by way of a nondeterministic one.

use crate::char_set::CharSet;
use crate::regex::{Regex, Repetition};
use std::collections::BTreeMap;

/// A state of the deterministic automaton.
pub type State = u16;

pub const START: State = 0;

/// No text from here on is matched by any rule.
const DEAD: State = State::MAX;

/// A deterministic automaton for several rules at once, over classes of characters.
pub struct Automaton {
    classes: Classes,
    /// The state after `state` and `class`, at `state * classes.count + class`.
    next: Vec<State>,
    /// The rule that the text read so far matches, by state.
    accepts: Vec<Option<usize>>,
}

impl Automaton {
    /// Panics if two rules match the same text of at least one character.
    pub fn new(rules: &[(&str, Regex)]) -> Self {
        let mut nfa = Nfa::default();
        let starts = rules
            .iter()
            .enumerate()
            .map(|(rule, (_, regex))| {
                let accept = nfa.add(Node::Accept(rule));
                nfa.compile(regex, accept)
            })
            .collect();
        let start = nfa.add(Node::Split(starts));
        let names: Vec<&str> = rules.iter().map(|&(name, _)| name).collect();
        Subsets::new(&nfa, &names).build(start)
    }

    pub fn states(&self) -> usize {
        self.accepts.len()
    }

    #[inline]
    pub fn step(&self, state: State, c: char) -> Option<State> {
        self.move_by(state, self.classes.of(c))
    }

    /// The same for a byte below 128.
    #[inline]
    pub fn step_ascii(&self, state: State, byte: u8) -> Option<State> {
        self.move_by(state, self.classes.ascii[usize::from(byte)])
    }

    #[inline]
    fn move_by(&self, state: State, class: u16) -> Option<State> {
        let next = self.next[usize::from(state) * self.classes.count + usize::from(class)];
        (next != DEAD).then_some(next)
    }

    #[inline]
    pub fn accepts(&self, state: State) -> Option<usize> {
        self.accepts[usize::from(state)]
    }
}

/// Characters that no rule tells apart are one class.
struct Classes {
    count: usize,
    ascii: [u16; 128],
    /// Where a run of characters of one class starts, with the class; sorted, the first at 0.
    runs: Vec<(u32, u16)>,
}

impl Classes {
    fn new(sets: &[CharSet]) -> Self {
        let mut edges: Vec<u32> = sets.iter().flat_map(CharSet::edges).collect();
        edges.push(0);
        edges.retain(|&edge| edge <= char::MAX as u32);
        edges.sort_unstable();
        edges.dedup();

        let mut by_membership = BTreeMap::new();
        let mut runs = Vec::new();
        for edge in edges {
            let membership: Vec<bool> = sets.iter().map(|set| set.contains(edge)).collect();
            let fresh = u16::try_from(by_membership.len()).expect("few classes");
            runs.push((edge, *by_membership.entry(membership).or_insert(fresh)));
        }
        let mut classes = Self {
            count: by_membership.len(),
            ascii: [0; 128],
            runs,
        };
        for code in 0..128u8 {
            classes.ascii[usize::from(code)] = classes.search(u32::from(code));
        }
        classes
    }

    #[inline]
    fn of(&self, c: char) -> u16 {
        self.search(c as u32)
    }

    fn search(&self, code: u32) -> u16 {
        let after = self.runs.partition_point(|&(start, _)| start <= code);
        self.runs[after - 1].1
    }

    /// Some character of each class, by class.
    fn samples(&self) -> Vec<u32> {
        let mut samples = vec![0; self.count];
        for &(start, class) in self.runs.iter().rev() {
            samples[usize::from(class)] = start;
        }
        samples
    }
}

/// A nondeterministic automaton.
#[derive(Default)]
struct Nfa {
    nodes: Vec<Node>,
    sets: Vec<CharSet>,
}

enum Node {
    /// On to any of these, reading nothing.
    Split(Vec<usize>),
    /// On to the second by a character of the first, an index into the sets.
    Read(usize, usize),
    /// The rule of this number is matched.
    Accept(usize),
}

impl Nfa {
    fn add(&mut self, node: Node) -> usize {
        self.nodes.push(node);
        self.nodes.len() - 1
    }

    /// Adds the expression so that `next` follows it; answers where it starts.
    fn compile(&mut self, regex: &Regex, next: usize) -> usize {
        match regex {
            Regex::Set(set) => {
                let index = self.set_index(set);
                self.add(Node::Read(index, next))
            }
            Regex::Sequence(parts) => parts
                .iter()
                .rev()
                .fold(next, |next, part| self.compile(part, next)),
            Regex::AnyOf(choices) => {
                let starts = choices
                    .iter()
                    .map(|choice| self.compile(choice, next))
                    .collect();
                self.add(Node::Split(starts))
            }
            Regex::Repeat(inside, Repetition::ZeroOrOne) => {
                let start = self.compile(inside, next);
                self.add(Node::Split(vec![start, next]))
            }
            Regex::Repeat(inside, repetition) => {
                let again = self.add(Node::Split(Vec::new()));
                let start = self.compile(inside, again);
                self.nodes[again] = Node::Split(vec![start, next]);
                match repetition {
                    Repetition::OneOrMore => start,
                    _ => again,
                }
            }
        }
    }

    fn set_index(&mut self, set: &CharSet) -> usize {
        let known = self.sets.iter().position(|other| other == set);
        known.unwrap_or_else(|| {
            self.sets.push(set.clone());
            self.sets.len() - 1
        })
    }

    /// All nodes reached from these without reading, sorted; splits are left out.
    fn closure(&self, mut todo: Vec<usize>) -> Vec<usize> {
        let mut seen = vec![false; self.nodes.len()];
        let mut reached = Vec::new();
        while let Some(node) = todo.pop() {
            if std::mem::replace(&mut seen[node], true) {
                continue;
            }
            match &self.nodes[node] {
                Node::Split(targets) => todo.extend(targets),
                Node::Read(..) | Node::Accept(_) => reached.push(node),
            }
        }
        reached.sort_unstable();
        reached
    }

    /// All nodes reached from these by one character.
    fn after(&self, nodes: &[usize], code: u32) -> Vec<usize> {
        let targets = nodes.iter().filter_map(|&node| match self.nodes[node] {
            Node::Read(set, target) if self.sets[set].contains(code) => Some(target),
            _ => None,
        });
        self.closure(targets.collect())
    }

    fn accepted(&self, nodes: &[usize]) -> Vec<usize> {
        let accepted = nodes.iter().filter_map(|&node| match self.nodes[node] {
            Node::Accept(rule) => Some(rule),
            _ => None,
        });
        accepted.collect()
    }
}

/// The subset construction: a deterministic state is a set of nodes.
struct Subsets<'a> {
    nfa: &'a Nfa,
    names: &'a [&'a str],
    states: BTreeMap<Vec<usize>, State>,
    /// By state: its nodes, and a shortest text that leads to it.
    found: Vec<(Vec<usize>, String)>,
    accepts: Vec<Option<usize>>,
}

impl<'a> Subsets<'a> {
    fn new(nfa: &'a Nfa, names: &'a [&'a str]) -> Self {
        Self {
            nfa,
            names,
            states: BTreeMap::new(),
            found: Vec::new(),
            accepts: Vec::new(),
        }
    }

    fn build(mut self, start: usize) -> Automaton {
        let classes = Classes::new(&self.nfa.sets);
        let samples = classes.samples();
        self.state_of(self.nfa.closure(vec![start]), String::new());
        let mut next = Vec::new();
        let mut done = 0;
        while let Some((nodes, text)) = self.found.get(done).cloned() {
            for &code in &samples {
                let after = self.nfa.after(&nodes, code);
                if after.is_empty() {
                    next.push(DEAD);
                } else {
                    let mut text = text.clone();
                    text.extend(char::from_u32(code));
                    next.push(self.state_after_reading(after, text));
                }
            }
            done += 1;
        }
        Automaton {
            classes,
            next,
            accepts: self.accepts,
        }
    }

    /// A tie counts only here: the empty text is never a token.
    fn state_after_reading(&mut self, nodes: Vec<usize>, text: String) -> State {
        if let [first, second, ..] = self.nfa.accepted(&nodes)[..] {
            panic!(
                "rules {} and {} match the same text {text:?}",
                self.names[first], self.names[second]
            );
        }
        self.state_of(nodes, text)
    }

    fn state_of(&mut self, nodes: Vec<usize>, text: String) -> State {
        if let Some(&state) = self.states.get(&nodes) {
            return state;
        }
        let state = State::try_from(self.found.len())
            .ok()
            .filter(|&state| state != DEAD)
            .expect("fewer states than a State counts");
        self.accepts
            .push(self.nfa.accepted(&nodes).first().copied());
        self.states.insert(nodes.clone(), state);
        self.found.push((nodes, text));
        state
    }
}
