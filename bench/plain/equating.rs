//! What the program `equating` does, written in plain Rust with the same algorithm and data: a table of nodes with their
//! heights, in which lists own their members, an evaluator with a trail of changes, equations by looks at what is left, values
//! with all values put in, and responses. It is there to be measured beside the program, and has no aliases, binders and
//! constants, since the program's work has none. As there, a type without children is looked at once, and never folded; a variable
//! is of a sort, of which its value has to be; and variables are counted.

use std::env;
use std::process::exit;

const MAX_HEIGHT: u32 = 1024;
const LENGTH: u32 = 1000;

/// What a variable stands for.
#[derive(Clone, Copy, PartialEq)]
enum Sort {
    General,
    #[allow(dead_code)]
    Integer,
}

#[derive(Clone, Copy, PartialEq)]
struct Variable {
    sort: Sort,
    number: u32,
}

#[derive(Clone, Copy, PartialEq)]
enum Kind {
    Uint(u8),
    Infer(Variable),
    Slice(u32),
}

enum Node {
    Ty(Kind),
    Args(Vec<u32>),
}

struct Row {
    node: Node,
    height: u32,
}

#[derive(Clone, Copy, PartialEq)]
enum Head {
    Uint(u8),
    Infer(Variable),
    Slice,
    Args,
}

enum Fault {
    NoSolution,
    NodesFull,
}

type Fallible<T> = Result<T, Fault>;

#[derive(Default)]
struct Nodes {
    rows: Vec<Row>,
}

impl Node {
    fn child_count(&self) -> usize {
        match self {
            Node::Ty(Kind::Slice(_)) => 1,
            Node::Ty(_) => 0,
            Node::Args(list) => list.len(),
        }
    }

    fn child(&self, i: usize) -> u32 {
        match self {
            Node::Ty(Kind::Slice(of)) => *of,
            Node::Args(list) => list[i],
            Node::Ty(_) => unreachable!(),
        }
    }

    fn head(&self) -> Head {
        match self {
            Node::Ty(Kind::Uint(width)) => Head::Uint(*width),
            Node::Ty(Kind::Infer(variable)) => Head::Infer(*variable),
            Node::Ty(Kind::Slice(_)) => Head::Slice,
            Node::Args(_) => Head::Args,
        }
    }
}

impl Head {
    fn is_number(self, number: u32) -> bool {
        matches!(self, Head::Infer(variable) if variable.number == number)
    }
}

impl Nodes {
    fn push(&mut self, node: Node) -> Fallible<u32> {
        let mut highest = 0;
        for i in 0..node.child_count() {
            highest = highest.max(self.rows[node.child(i) as usize].height);
        }
        let height = if matches!(node, Node::Ty(_)) { highest + 1 } else { highest };
        if height > MAX_HEIGHT || self.rows.len() >= u32::MAX as usize {
            return Err(Fault::NodesFull);
        }
        self.rows.push(Row { node, height });
        Ok(self.rows.len() as u32 - 1)
    }

    fn node(&self, number: u32) -> &Node {
        &self.rows[number as usize].node
    }

    fn head(&self, number: u32) -> Head {
        self.node(number).head()
    }

    fn child(&self, number: u32, place: usize) -> Option<u32> {
        let node = self.node(number);
        if place < node.child_count() { Some(node.child(place)) } else { None }
    }

    fn args(&mut self, list: &[u32]) -> Fallible<u32> {
        self.push(Node::Args(list.to_vec()))
    }

    /// Whether it is a type without children.
    fn is_lone(&self, number: u32) -> bool {
        matches!(self.node(number), Node::Ty(Kind::Uint(_) | Kind::Infer(_)))
    }

    /// Notes the numbers of the variables, each once, by first occurrence.
    fn note(&self, number: u32, order: &mut Vec<u32>) {
        let node = self.node(number);
        if let Head::Infer(variable) = node.head() {
            if !order.contains(&variable.number) {
                order.push(variable.number);
            }
        }
        for i in 0..node.child_count() {
            self.note(node.child(i), order);
        }
    }

    /// Whether the mark stands at a node of the tree.
    fn holds(&self, number: u32, mark: &impl Fn(Head) -> bool) -> bool {
        let node = self.node(number);
        mark(node.head()) || (0..node.child_count()).any(|i| self.holds(node.child(i), mark))
    }

    /// The tree, with the answers in the place of what they are for; what has none is made anew.
    fn fold(&mut self, number: u32, answer: &mut impl FnMut(&Nodes, u32) -> Option<u32>) -> Fallible<u32> {
        if let Some(other) = answer(self, number) {
            return Ok(other);
        }
        match *self.node(number) {
            Node::Ty(Kind::Slice(of)) => {
                let of = self.fold(of, answer)?;
                self.push(Node::Ty(Kind::Slice(of)))
            }
            Node::Ty(kind) => self.push(Node::Ty(kind)),
            Node::Args(ref list) => {
                let mut list = list.clone();
                for member in &mut list {
                    *member = self.fold(*member, answer)?;
                }
                self.push(Node::Args(list))
            }
        }
    }
}

#[derive(Clone, Copy)]
struct Entry {
    sort: Sort,
    universe: u32,
    value: Option<u32>,
    is_root: bool,
}

#[allow(dead_code)]
#[derive(Clone, Copy)]
enum Change {
    Variable,
    Value(u32, Option<u32>),
    Universe(u32, u32),
    NewestUniverse,
    Region,
    Goal,
    Pending(usize),
    Open(u32, u32),
}

#[derive(Clone, Copy)]
struct Frame {
    left: u32,
    right: u32,
    place: usize,
}

struct Response {
    values: u32,
    vars: Vec<(u32, bool)>,
}

struct Rounds {
    nodes: Nodes,
    newest_universe: u32,
    variables: Vec<Entry>,
    first_open: u32,
    end_open: u32,
    trail: Vec<Change>,
    probes: Vec<usize>,
}

impl Rounds {
    fn new() -> Rounds {
        Rounds {
            nodes: Nodes::default(),
            newest_universe: 0,
            variables: Vec::new(),
            first_open: u32::MAX,
            end_open: 0,
            trail: Vec::new(),
            probes: Vec::new(),
        }
    }

    fn new_root_var(&mut self) -> Fallible<u32> {
        if self.variables.len() >= u32::MAX as usize {
            return Err(Fault::NodesFull);
        }
        let (sort, number) = (Sort::General, self.variables.len() as u32);
        let arg = self.nodes.push(Node::Ty(Kind::Infer(Variable { sort, number })))?;
        self.trail.push(Change::Variable);
        self.variables.push(Entry { sort, universe: 0, value: None, is_root: true });
        Ok(arg)
    }

    fn undo_to(&mut self, changes: usize) {
        while self.trail.len() > changes {
            match self.trail.pop().unwrap() {
                Change::Variable => drop(self.variables.pop()),
                Change::Value(number, value) => self.variables[number as usize].value = value,
                Change::Universe(number, universe) => self.variables[number as usize].universe = universe,
                Change::Open(first, end) => (self.first_open, self.end_open) = (first, end),
                _ => unreachable!(),
            }
        }
    }

    fn begin_probe(&mut self) {
        self.probes.push(self.trail.len());
    }

    fn end_probe(&mut self) {
        let changes = self.probes.pop().unwrap();
        self.undo_to(changes);
    }

    fn value_of(variables: &[Entry], nodes: &Nodes, number: u32) -> Option<u32> {
        match nodes.head(number) {
            Head::Infer(variable) => {
                let entry = variables.get(variable.number as usize)?;
                if entry.sort == variable.sort { entry.value } else { None }
            }
            _ => None,
        }
    }

    fn current(&self, number: u32) -> u32 {
        Rounds::value_of(&self.variables, &self.nodes, number).unwrap_or(number)
    }

    fn resolved(&mut self, number: u32) -> Fallible<u32> {
        let variables = &self.variables;
        self.nodes.fold(number, &mut |nodes, at| Rounds::value_of(variables, nodes, at))
    }

    /// With all values put in; no types are listed.
    fn value_for(&mut self, number: u32) -> Fallible<u32> {
        if self.nodes.is_lone(number) {
            return Ok(self.current(number));
        }
        self.resolved(number)
    }

    /// Whether the tree is of the sort.
    fn fits(&self, sort: Sort, value: u32) -> bool {
        match (sort, self.nodes.head(value)) {
            (Sort::General, _) | (_, Head::Uint(_)) => true,
            (_, Head::Infer(variable)) => variable.sort == sort,
            _ => false,
        }
    }

    /// The variable doesn't stand in the value, nor do bound variables, nor placeholders of universes above its own.
    fn may_take(&self, variable: Variable, value: u32) -> bool {
        let Some(entry) = self.variables.get(variable.number as usize) else {
            return false;
        };
        if entry.sort != variable.sort || !self.fits(variable.sort, value) {
            return false;
        }
        if self.nodes.is_lone(value) {
            return !self.nodes.head(value).is_number(variable.number);
        }
        !self.nodes.holds(value, &|head| head.is_number(variable.number))
            && !self.nodes.holds(value, &|_| false)
            && !self.nodes.holds(value, &|_| false)
    }

    fn assign(&mut self, number: u32, value: u32) {
        let before = self.variables[number as usize].value;
        self.trail.push(Change::Value(number, before));
        self.variables[number as usize].value = Some(value);
    }

    fn renew_value(&mut self, number: u32, variable: Variable, value: u32) -> Fallible<()> {
        let Some(entry) = self.variables.get(number as usize).copied() else {
            return Ok(());
        };
        if number == variable.number {
            self.assign(number, value);
            return Ok(());
        }
        let Some(old) = entry.value else {
            return Ok(());
        };
        if !self.nodes.holds(old, &|head| head.is_number(variable.number)) {
            return Ok(());
        }
        let new = self.nodes.fold(old, &mut |nodes, at| if nodes.head(at) == Head::Infer(variable) { Some(value) } else { None })?;
        self.assign(number, new);
        Ok(())
    }

    fn bind(&mut self, variable: Variable, value: u32) -> Fallible<()> {
        let universe = self.variables[variable.number as usize].universe;
        if self.nodes.holds(value, &|head| matches!(head, Head::Infer(_))) {
            self.trail.push(Change::Open(self.first_open, self.end_open));
            self.first_open = self.first_open.min(variable.number);
            self.end_open = self.end_open.max(variable.number + 1);
        }
        for number in self.first_open..self.end_open {
            self.renew_value(number, variable, value)?;
        }
        self.renew_value(variable.number, variable, value)?;
        if self.newest_universe <= universe {
            return Ok(());
        }
        for number in 0..self.variables.len() as u32 {
            let entry = self.variables[number as usize];
            if entry.universe > universe && self.nodes.holds(value, &|head| head.is_number(number)) {
                self.trail.push(Change::Universe(number, entry.universe));
                self.variables[number as usize].universe = universe;
            }
        }
        Ok(())
    }

    fn offered(&mut self, to: u32, number: u32) -> Fallible<bool> {
        let Head::Infer(variable) = self.nodes.head(to) else {
            return Ok(false);
        };
        let value = self.value_for(number)?;
        if !self.may_take(variable, value) {
            return Ok(false);
        }
        self.bind(variable, value)?;
        Ok(true)
    }

    fn meet(&mut self, rest: &mut Vec<Frame>, left: u32, right: u32) -> Fallible<()> {
        let (left, right) = (self.current(left), self.current(right));
        if self.offered(left, right)? || self.offered(right, left)? {
            return Ok(());
        }
        if self.nodes.head(left) != self.nodes.head(right) {
            return Err(Fault::NoSolution);
        }
        rest.push(Frame { left, right, place: 0 });
        Ok(())
    }

    fn unify(&mut self, rest: &mut Vec<Frame>) -> Fallible<()> {
        while let Some(frame) = rest.pop() {
            match (self.nodes.child(frame.left, frame.place), self.nodes.child(frame.right, frame.place)) {
                (None, None) => {}
                (Some(left), Some(right)) => {
                    rest.push(Frame { place: frame.place + 1, ..frame });
                    self.meet(rest, left, right)?;
                }
                _ => return Err(Fault::NoSolution),
            }
        }
        Ok(())
    }

    fn undone_unless(&mut self, changes: usize, result: Fallible<()>) -> Fallible<()> {
        if result.is_err() {
            self.undo_to(changes);
        }
        result
    }

    fn eq(&mut self, a: u32, b: u32) -> Fallible<()> {
        let changes = self.trail.len();
        let mut rest = Vec::new();
        let result = self.meet(&mut rest, a, b).and_then(|()| self.unify(&mut rest));
        self.undone_unless(changes, result)
    }

    fn eq_args(&mut self, a: u32, b: u32) -> Fallible<()> {
        let changes = self.trail.len();
        let mut rest = vec![Frame { left: a, right: b, place: 0 }];
        let result = self.unify(&mut rest);
        self.undone_unless(changes, result)
    }

    /// The values of the roots, or the roots themselves, where they have none.
    fn root_values(&mut self) -> Fallible<u32> {
        let mut values = Vec::new();
        for number in 0..self.variables.len() as u32 {
            let entry = self.variables[number as usize];
            if !entry.is_root {
                continue;
            }
            let value = match entry.value {
                Some(value) => value,
                None => self.nodes.push(Node::Ty(Kind::Infer(Variable { sort: entry.sort, number })))?,
            };
            values.push(value);
        }
        self.nodes.push(Node::Args(values))
    }

    /// The list, with its variables numbered by their places.
    fn renumbered(&mut self, list: u32, order: &[u32]) -> Fallible<u32> {
        let mut leaves = Vec::new();
        for (place, number) in order.iter().enumerate() {
            let sort = self.variables[*number as usize].sort;
            let variable = Variable { sort, number: place as u32 };
            leaves.push(self.nodes.push(Node::Ty(Kind::Infer(variable)))?);
        }
        self.nodes.fold(list, &mut |nodes, at| match nodes.head(at) {
            Head::Infer(variable) => order.iter().position(|it| *it == variable.number).map(|place| leaves[place]),
            _ => None,
        })
    }

    /// The values of the roots, with the variables that are left numbered anew by first occurrence.
    fn respond(&mut self) -> Fallible<Response> {
        let list = self.root_values()?;
        let mut order = Vec::new();
        self.nodes.note(list, &mut order);
        let values = if order.is_empty() { list } else { self.renumbered(list, &order)? };
        let vars = order.iter().map(|number| (self.variables[*number as usize].universe, true)).collect();
        Ok(Response { values, vars })
    }
}

fn uint(rounds: &mut Rounds, width: u8) -> Fallible<u32> {
    rounds.nodes.push(Node::Ty(Kind::Uint(width)))
}

fn equate_fresh(rounds: &mut Rounds) -> Fallible<()> {
    let a = rounds.new_root_var()?;
    let byte = uint(rounds, 8)?;
    let left = rounds.nodes.args(&[a, byte])?;
    let short = uint(rounds, 16)?;
    let b = rounds.new_root_var()?;
    let right = rounds.nodes.args(&[short, b])?;
    rounds.eq_args(left, right)
}

fn answered(response: Fallible<Response>) -> Fallible<()> {
    let response = response?;
    std::hint::black_box((response.values, response.vars.len()));
    Ok(())
}

fn probe_equation(rounds: &mut Rounds, a: u32, b: u32) -> Fallible<()> {
    rounds.begin_probe();
    let result = rounds.eq_args(a, b).and_then(|()| answered(rounds.respond()));
    rounds.end_probe();
    result
}

fn chain(rounds: &mut Rounds) -> Fallible<()> {
    let mut last = rounds.new_root_var()?;
    for _ in 1..LENGTH {
        let next = rounds.new_root_var()?;
        rounds.eq(last, next)?;
        last = next;
    }
    let byte = uint(rounds, 8)?;
    rounds.eq(last, byte)?;
    answered(rounds.respond())
}

fn probe_chain(rounds: &mut Rounds) -> Fallible<()> {
    rounds.begin_probe();
    let result = chain(rounds);
    rounds.end_probe();
    result
}

fn do_all(work: &str, count: u32) -> Fallible<u32> {
    let mut rounds = Rounds::new();
    let mut variables = Vec::new();
    for _ in 0..3 {
        variables.push(rounds.new_root_var()?);
    }
    let a = rounds.nodes.args(&variables)?;
    let types = [uint(&mut rounds, 8)?, uint(&mut rounds, 16)?, uint(&mut rounds, 32)?];
    let b = rounds.nodes.args(&types)?;
    let mut accepted = 0;
    while accepted < count {
        match work {
            "equations" => equate_fresh(&mut rounds)?,
            "probes" => probe_equation(&mut rounds, a, b)?,
            _ => probe_chain(&mut rounds)?,
        }
        accepted += 1;
    }
    Ok(accepted)
}

fn main() {
    let words: Vec<String> = env::args().collect();
    let count = words[2].parse().unwrap();
    match do_all(&words[1], count) {
        Ok(accepted) => println!("{accepted}"),
        Err(_) => exit(3),
    }
}
