//! The network with its registers, and the effects of events.
use crate::row::Row;
use crate::rule::Rule;

/// An event. Its nodes are ranks.
#[derive(Clone, Copy)]
pub enum Event {
    Move { rank: usize, rule: Rule, mate: Option<usize> },
    Release(usize),
    Close,
    Fault { rank: usize, p: Option<usize>, m: bool },
    Link(usize, usize),
    Cut(usize, usize),
}

/// The result of an event: the nodes that moved in a close, or else the number of chosen moves that were dropped.
#[derive(Clone, Copy)]
pub enum Done {
    Moved(Row),
    Dropped(usize),
}

/// A world. Its sets of nodes are updated by each event, so that requests can be answered quickly.
pub struct World {
    /// The number of the configuration.
    pub number: u64,
    links: Vec<Row>,
    suitors: Vec<Row>,
    p: Vec<Option<u16>>,
    m: Row,
    idle: Row,
    privileged: Row,
    chosen: Row,
    moves: Vec<(Rule, u16)>,
    next: Vec<(Option<usize>, bool)>,
    count: usize,
}

impl World {
    /// Returns a world with these links, and these registers in the order of the nodes' ranks.
    pub fn new(links: impl Iterator<Item = (usize, usize)>, registers: Vec<(Option<usize>, bool)>) -> World {
        let size = registers.len();
        let mut world = World {
            number: 0,
            links: vec![Row::EMPTY; size],
            suitors: vec![Row::EMPTY; size],
            p: vec![None; size],
            m: Row::EMPTY,
            idle: Row::EMPTY,
            privileged: Row::EMPTY,
            chosen: Row::EMPTY,
            moves: vec![(Rule::Update, 0); size],
            next: registers.clone(),
            count: 0,
        };
        for (a, b) in links {
            world.set_link(a, b, true);
        }
        for (rank, &(p, m)) in registers.iter().enumerate() {
            world.set(rank, p, m);
        }
        for rank in 0..size {
            world.refresh(rank);
        }
        world
    }

    /// Returns the number of nodes.
    pub fn size(&self) -> usize {
        self.p.len()
    }

    /// Returns the neighbours of a node.
    #[inline]
    pub fn near(&self, rank: usize) -> Row {
        self.links[rank]
    }

    /// Returns the register `p` of a node.
    #[inline]
    pub fn p(&self, rank: usize) -> Option<usize> {
        self.p[rank].map(usize::from)
    }

    /// Returns the register `m` of a node.
    #[inline]
    pub fn m(&self, rank: usize) -> bool {
        self.m.contains(rank)
    }

    /// Returns the privileged nodes.
    pub fn privileged(&self) -> Row {
        self.privileged
    }

    /// Returns the number of chosen moves.
    pub fn count(&self) -> usize {
        self.count
    }

    /// Returns the rule of the chosen move of a node.
    #[inline]
    pub fn chosen(&self, rank: usize) -> Option<Rule> {
        self.chosen.contains(rank).then(|| self.moves[rank].0)
    }

    /// Returns whether a node is married, that is, points at a node that points back.
    #[inline]
    pub fn is_married(&self, rank: usize) -> bool {
        self.p(rank).map_or(false, |mate| self.p(mate) == Some(rank))
    }

    /// Returns the greatest node that a node may seduce.
    fn seduced(&self, rank: usize) -> Option<usize> {
        let willing = self.idle.minus(self.m);
        self.links[rank].and(Row::above(rank).and(willing)).greatest()
    }

    /// Returns the rule that is enabled at a node.
    pub fn enabled(&self, rank: usize) -> Option<Rule> {
        let m = self.m(rank);
        if m != self.is_married(rank) {
            return Some(Rule::Update);
        }
        match self.p(rank) {
            None if !self.suitors[rank].is_empty() => Some(Rule::Marriage),
            None => self.seduced(rank).map(|_| Rule::Seduction),
            Some(mate) if !m && (self.m(mate) || mate < rank) => Some(Rule::Abandonment),
            Some(_) => None,
        }
    }

    /// Returns whether the guard of a rule holds at a node. For a marriage, `mate` is the other node.
    pub fn holds(&self, rank: usize, rule: Rule, mate: Option<usize>) -> bool {
        let courts = |mate: Option<usize>| mate.map_or(false, |mate| self.suitors[rank].contains(mate));
        self.enabled(rank) == Some(rule) && (rule != Rule::Marriage || courts(mate))
    }

    fn refresh(&mut self, rank: usize) {
        let is_privileged = self.enabled(rank).is_some();
        self.privileged.set(rank, is_privileged);
    }

    fn refresh_around(&mut self, rank: usize) {
        self.refresh(rank);
        self.links[rank].for_each(|near| self.refresh(near));
    }

    fn set_link(&mut self, a: usize, b: usize, is_linked: bool) {
        self.links[a].set(b, is_linked);
        self.links[b].set(a, is_linked);
    }

    fn set(&mut self, rank: usize, p: Option<usize>, m: bool) {
        if let Some(before) = self.p(rank) {
            self.suitors[before].set(rank, false);
        }
        if let Some(mate) = p {
            self.suitors[mate].set(rank, true);
        }
        self.p[rank] = p.map(|mate| mate as u16);
        self.idle.set(rank, p.is_none());
        self.m.set(rank, m);
    }

    /// Begins the next configuration, in which no move is chosen. Returns the number of moves that were chosen before.
    fn go_on(&mut self) -> usize {
        self.number += 1;
        self.chosen = Row::EMPTY;
        std::mem::take(&mut self.count)
    }

    /// Returns the registers of a node after its chosen move.
    fn moved(&self, rank: usize) -> (Option<usize>, bool) {
        let m = self.m(rank);
        match self.moves[rank] {
            (Rule::Update, _) => (self.p(rank), self.is_married(rank)),
            (Rule::Marriage, mate) => (Some(usize::from(mate)), m),
            (Rule::Seduction, _) => (self.seduced(rank), m),
            (Rule::Abandonment, _) => (None, m),
        }
    }

    fn close(&mut self) -> Done {
        let row = self.chosen;
        row.for_each(|rank| self.next[rank] = self.moved(rank));
        row.for_each(|rank| self.set(rank, self.next[rank].0, self.next[rank].1));
        row.for_each(|rank| self.refresh_around(rank));
        self.go_on();
        Done::Moved(row)
    }

    fn link(&mut self, a: usize, b: usize) -> Done {
        self.set_link(a, b, true);
        self.refresh_around(a);
        self.refresh_around(b);
        Done::Dropped(self.go_on())
    }

    fn cut(&mut self, a: usize, b: usize) -> Done {
        self.set_link(a, b, false);
        for (from, to) in [(a, b), (b, a)] {
            if self.p(from) == Some(to) {
                self.set(from, None, self.m(from));
            }
        }
        self.refresh_around(a);
        self.refresh_around(b);
        Done::Dropped(self.go_on())
    }

    /// Applies a legal event.
    pub fn apply(&mut self, event: Event) -> Done {
        match event {
            Event::Move { rank, rule, mate } => {
                self.moves[rank] = (rule, mate.unwrap_or(0) as u16);
                self.chosen.set(rank, true);
                self.count += 1;
                Done::Dropped(0)
            }
            Event::Release(rank) => {
                self.chosen.set(rank, false);
                self.count -= 1;
                Done::Dropped(0)
            }
            Event::Close => self.close(),
            Event::Fault { rank, p, m } => {
                self.set(rank, p, m);
                self.refresh_around(rank);
                Done::Dropped(self.go_on())
            }
            Event::Link(a, b) => self.link(a, b),
            Event::Cut(a, b) => self.cut(a, b),
        }
    }
}
