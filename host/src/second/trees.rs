//! From a question to its trees (document 01, "From a question to its trees").

use super::book::{complement, Entry, Rule};
use super::model::Program;
use crate::answer::{Question, Tree};

/// The answer to a question, or nothing where the walk of its trees takes more than `visits`.
pub fn search(program: &Program, question: Question, visits: u64) -> Option<bool> {
    Walk::new(program, visits).ask(question)
}

/// A walk of the pruned trees of one program.
pub struct Walk<'a> {
    program: &'a Program,
    visits_left: u64,
    /// How many nodes stood above each other at most, over all trees.
    pub deepest: usize,
}

/// Where a node stands: the kind of its tree, and the literals above it.
struct Place {
    tree: Tree,
    /// The literals above the node in its own tree.
    local: Vec<usize>,
    /// The ancestors of the tree that were met in T-trees.
    global_t: Vec<usize>,
    /// How many nodes stand above this one, over all trees.
    depth: usize,
}

impl Place {
    /// The root of a tree that a question opens.
    fn root(tree: Tree) -> Place {
        Place {
            tree,
            local: Vec::new(),
            global_t: Vec::new(),
            depth: 0,
        }
    }

    /// Whether pruning rule 1 or 4 fails an objective literal here.
    fn prunes(&self, literal: usize) -> bool {
        let rule_1 = self.local.contains(&literal);
        let rule_4 = self.tree == Tree::T && self.global_t.contains(&literal);
        rule_1 || rule_4
    }

    /// The place of the children of a node with this label.
    fn below(&self, literal: usize) -> Place {
        let mut local = self.local.clone();
        local.push(literal);
        Place {
            tree: self.tree,
            local,
            global_t: self.global_t.clone(),
            depth: self.depth + 1,
        }
    }

    /// The root of a tree that a leaf at this place opens. Its global ancestors are those of the
    /// leaf's tree and the leaf's local ones, and the latter are T-ancestors in a T-tree.
    fn opened(&self, tree: Tree) -> Place {
        let mut global_t = self.global_t.clone();
        if self.tree == Tree::T {
            global_t.extend(&self.local);
        }
        Place {
            tree,
            local: Vec::new(),
            global_t,
            depth: self.depth + 1,
        }
    }
}

impl<'a> Walk<'a> {
    pub fn new(program: &'a Program, visits: u64) -> Walk<'a> {
        Walk {
            program,
            visits_left: visits,
            deepest: 0,
        }
    }

    /// The answer to a question, or nothing where the walk has no visits left.
    pub fn ask(&mut self, question: Question) -> Option<bool> {
        let entry = Entry {
            literal: question.literal,
            default: question.default,
        };
        self.holds(entry, &Place::root(question.tree))
    }

    fn visit(&mut self, place: &Place) -> Option<()> {
        self.visits_left = self.visits_left.checked_sub(1)?;
        self.deepest = self.deepest.max(place.depth + 1);
        Some(())
    }

    fn holds(&mut self, entry: Entry, place: &Place) -> Option<bool> {
        self.visit(place)?;
        if entry.default {
            self.leaf_holds(entry.literal, place)
        } else {
            self.objective_holds(entry.literal, place)
        }
    }

    fn objective_holds(&mut self, literal: usize, place: &Place) -> Option<bool> {
        if place.prunes(literal) {
            return Some(false);
        }
        let program = self.program;
        let below = place.below(literal);
        for rule in program.rules.iter().filter(|rule| rule.head == literal) {
            if self.children_hold(rule, &below)? {
                return Some(true);
            }
        }
        Some(false)
    }

    /// Whether all children under a rule hold. In a TU-tree "not the complement of the head" is
    /// one more child.
    fn children_hold(&mut self, rule: &Rule, place: &Place) -> Option<bool> {
        for &entry in &rule.body {
            if !self.holds(entry, place)? {
                return Some(false);
            }
        }
        if place.tree == Tree::T {
            return Some(true);
        }
        let added = Entry {
            literal: complement(rule.head),
            default: true,
        };
        self.holds(added, place)
    }

    /// Whether the default leaf "not A" holds.
    fn leaf_holds(&mut self, a: usize, place: &Place) -> Option<bool> {
        let opened = |tree| place.opened(tree);
        match place.tree {
            Tree::T => Some(
                !self.root_holds(a, &opened(Tree::TU))?
                    || self.root_holds(complement(a), &opened(Tree::T))?,
            ),
            Tree::TU => Some(!self.root_holds(a, &opened(Tree::T))?),
        }
    }

    fn root_holds(&mut self, literal: usize, place: &Place) -> Option<bool> {
        let entry = Entry {
            literal,
            default: false,
        };
        self.holds(entry, place)
    }
}
