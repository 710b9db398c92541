//! The lab file. It has to be valid: `mml check` reports what is wrong with a lab.
use crate::row::Row;
use crate::world::World;
use serde::Deserialize;
use std::collections::HashMap;
use std::path::Path;

const NO_RANK: u16 = u16::MAX;

/// A participant.
#[derive(Clone, Copy, PartialEq, Eq)]
pub enum Who {
    Teacher,
    Student(u16),
}

/// The participants, the owners of the nodes, and the limits.
pub struct Lab {
    /// The greatest number of events.
    pub events: u64,
    /// The greatest number of connections.
    pub sessions: usize,
    /// The nodes' identifiers in rising order.
    pub ids: Vec<u16>,
    people: HashMap<String, (String, Who)>,
    teacher: String,
    students: Vec<String>,
    ranks: Vec<u16>,
    owned: Vec<Row>,
}

#[derive(Deserialize)]
struct File {
    events: u64,
    sessions: usize,
    teacher: Person,
    #[serde(default)]
    student: Vec<Person>,
    #[serde(default)]
    links: Vec<(u16, u16)>,
    node: Vec<Node>,
}

#[derive(Deserialize)]
struct Person {
    name: String,
    key: String,
}

#[derive(Deserialize)]
struct Node {
    id: u16,
    owner: Option<String>,
    #[serde(default)]
    owners: Vec<String>,
    p: Option<u16>,
    #[serde(default)]
    m: bool,
}

impl Lab {
    /// Returns the lab in a file, and its world at the beginning.
    pub fn read(path: &Path) -> (Lab, World) {
        let text = std::fs::read_to_string(path).expect("the lab can't be read");
        let mut file: File = toml::from_str(&text).expect("the lab is none");
        file.node.sort_by_key(|node| node.id);
        let lab = Lab::of(&file);
        let world = lab.world(&file);
        (lab, world)
    }

    fn of(file: &File) -> Lab {
        let mut lab = Lab {
            events: file.events,
            sessions: file.sessions,
            ids: file.node.iter().map(|node| node.id).collect(),
            people: HashMap::new(),
            teacher: file.teacher.name.clone(),
            students: file.student.iter().map(|one| one.name.clone()).collect(),
            ranks: vec![NO_RANK; 1 << 16],
            owned: vec![Row::EMPTY; file.student.len()],
        };
        lab.add_person(&file.teacher, Who::Teacher);
        for (index, one) in file.student.iter().enumerate() {
            lab.add_person(one, Who::Student(index as u16));
        }
        for (rank, node) in file.node.iter().enumerate() {
            lab.ranks[usize::from(node.id)] = rank as u16;
            for name in node.owners.iter().chain(&node.owner) {
                let index = lab.students.iter().position(|one| one == name);
                lab.owned[index.expect("no such owner")].set(rank, true);
            }
        }
        lab
    }

    fn add_person(&mut self, one: &Person, who: Who) {
        self.people.insert(one.name.clone(), (one.key.clone(), who));
    }

    fn world(&self, file: &File) -> World {
        let rank = |id: u16| self.rank(u64::from(id)).expect("no such node");
        let links = file.links.iter().map(|&(a, b)| (rank(a), rank(b)));
        let registers = file.node.iter().map(|node| (node.p.map(rank), node.m));
        World::new(links, registers.collect())
    }

    /// Returns the rank of the node with an identifier.
    #[inline]
    pub fn rank(&self, id: u64) -> Option<usize> {
        match self.ranks.get(usize::try_from(id).ok()?) {
            Some(&rank) if rank != NO_RANK => Some(usize::from(rank)),
            _ => None,
        }
    }

    /// Returns the identifier of the node with a rank.
    #[inline(always)]
    pub fn id(&self, rank: usize) -> u64 {
        u64::from(self.ids[rank])
    }

    /// Returns the participant with this name and key.
    pub fn greeted(&self, name: &str, key: &str) -> Option<Who> {
        match self.people.get(name) {
            Some((right, who)) if right == key => Some(*who),
            _ => None,
        }
    }

    /// Returns the student with this name.
    pub fn student(&self, name: &str) -> Option<Who> {
        self.people.get(name).map(|(_, who)| *who).filter(|who| *who != Who::Teacher)
    }

    /// Returns the name of a participant.
    pub fn name(&self, who: Who) -> &str {
        match who {
            Who::Teacher => &self.teacher,
            Who::Student(index) => &self.students[usize::from(index)],
        }
    }

    /// Returns whether a participant owns a node. The teacher owns none.
    #[inline]
    pub fn owns(&self, who: Who, rank: usize) -> bool {
        match who {
            Who::Teacher => false,
            Who::Student(index) => self.owned[usize::from(index)].contains(rank),
        }
    }

    /// Returns whether a participant may see a node with these neighbours.
    #[inline]
    pub fn may_see(&self, who: Who, rank: usize, near: Row) -> bool {
        match who {
            Who::Teacher => true,
            Who::Student(index) => {
                let owned = self.owned[usize::from(index)];
                owned.contains(rank) || !owned.and(near).is_empty()
            }
        }
    }
}
