//! What each call can call: methods of the application, and the outside. Calls that can call the same for one cause share a set.

use crate::app::{ABSTRACT, App, By, Named, Usage};
use crate::hierarchy::Hierarchy;
use std::collections::{BTreeMap, HashMap};

#[derive(Clone, Default)]
pub struct Targets {
    pub callees: Vec<u32>,
    pub outside: bool,
}

pub struct CallGraph {
    pub sets: Vec<Targets>,
    /// The set of each call.
    pub set_of: Vec<u32>,
}

fn targets_of(found: impl IntoIterator<Item = Option<u32>>) -> Targets {
    let mut targets = Targets::default();
    for method in found {
        match method {
            Some(method) => targets.callees.push(method),
            None => targets.outside = true,
        }
    }
    targets.callees.sort_unstable();
    targets.callees.dedup();
    targets
}

/// What decides what a call can call: how it finds its method, what it names, and for super calls the calling class.
type Key = (By, Named, Option<u32>);

/// The virtual calls of one name and prototype: the named type of each set.
type Virtuals = BTreeMap<(u32, u32), Vec<(u32, u32)>>;

/// The methods that are not abstract by name and prototype, each with its class.
fn declaring(app: &App) -> HashMap<(u32, u32), Vec<(u32, u32)>> {
    let mut declaring = HashMap::<_, Vec<_>>::new();
    for (number, method) in (0..).zip(&app.methods) {
        if method.flags & ABSTRACT == 0 {
            let methods = declaring.entry((method.name, method.proto)).or_default();
            methods.push((method.class, number));
        }
    }
    declaring
}

impl CallGraph {
    pub fn new(app: &App, hierarchy: &Hierarchy) -> CallGraph {
        let outside = Targets { callees: Vec::new(), outside: true };
        let mut graph = CallGraph { sets: vec![outside], set_of: Vec::new() };
        let (mut sets, mut virtuals) = (HashMap::<Key, u32>::new(), Virtuals::new());
        for call in &app.calls {
            if call.usage != Usage::Plain || app.text_of_type(call.named.class).starts_with(b"[") {
                graph.set_of.push(0);
                continue;
            }
            let caller = app.methods[call.method as usize].class;
            let key = (call.by, call.named, (call.by == By::Super).then_some(caller));
            let set = *sets.entry(key).or_insert_with(|| graph.add_set(app, key, &mut virtuals));
            graph.set_of.push(set);
        }
        graph.add_virtuals(app, hierarchy, virtuals);
        graph
    }

    /// The set of a call; that of a virtual one is made later.
    fn add_set(&mut self, app: &App, (by, named, caller): Key, virtuals: &mut Virtuals) -> u32 {
        let set = self.sets.len() as u32;
        let from = match (by, caller) {
            (By::Virtual, _) => {
                let calls = virtuals.entry((named.name, named.proto)).or_default();
                calls.push((named.class, set));
                self.sets.push(Targets::default());
                return set;
            }
            (By::Super, Some(caller)) => app.superclass(caller),
            _ => app.class_of(named.class),
        };
        self.sets.push(targets_of([app.look_up(from, named.name, named.proto)]));
        set
    }

    /// For each name and prototype, what it finds in each class; and with that each set of virtual calls.
    fn add_virtuals(&mut self, app: &App, hierarchy: &Hierarchy, virtuals: Virtuals) {
        let declaring = declaring(app);
        let mut receivers = HashMap::<u32, Vec<u32>>::new();
        let mut marks = vec![false; app.classes.len()];
        let mut found = vec![None; app.classes.len()];
        for (name, calls) in virtuals {
            let Some(methods) = declaring.get(&name) else {
                for (_, set) in calls {
                    self.sets[set as usize].outside = true;
                }
                continue;
            };
            find_in_all(app, hierarchy, methods, &mut found);
            for (kind, set) in calls {
                let of_kind = || hierarchy.receivers(app, kind, &mut marks);
                let classes = receivers.entry(kind).or_insert_with(of_kind);
                let mut targets = targets_of(classes.iter().map(|&class| found[class as usize]));
                targets.outside |= app.class_of(kind).is_none();
                self.sets[set as usize] = targets;
            }
        }
    }

    pub fn targets(&self, call: u32) -> &Targets {
        &self.sets[self.set_of[call as usize] as usize]
    }
}

/// Puts what each class has of these methods, or inherits.
fn find_in_all(app: &App, hierarchy: &Hierarchy, methods: &[(u32, u32)], found: &mut [Option<u32>]) {
    found.fill(None);
    for &(class, method) in methods.iter().rev() {
        found[class as usize] = Some(method);
    }
    for &class in &hierarchy.order {
        if found[class as usize].is_none() {
            found[class as usize] = app.superclass(class).and_then(|above| found[above as usize]);
        }
    }
}
