//! The least solution of the flow rules for one lock field. A word has a row for each status at which a method was entered, or for
//! each state of a component.

use crate::act::Act;
use crate::components::Edge;
use crate::judge::Subject;
use crate::status::{CLEAR, Effect, SAME, image, itself, lead, open, then};

/// The facts.
pub struct Solution {
    at: Vec<Vec<u64>>,
    /// What each method returns with, and what each set of callees returns and throws with.
    returned: Vec<u64>,
    set_returned: Vec<u64>,
    set_thrown: Vec<u64>,
    pub views: Vec<u64>,
}

type Place = (u32, u32);

/// The facts while they grow, and the places that are worth a look.
pub struct Solver<'a> {
    subject: &'a Subject<'a>,
    lock: u8,
    solution: Solution,
    thrown: Vec<u64>,
    /// By set: the statuses at which it was entered.
    entered: Vec<u64>,
    waits: Vec<Vec<bool>>,
    todo: Vec<Place>,
}

/// Adds facts to a word, and tells whether one is new.
fn add(word: &mut u64, more: u64) -> bool {
    let old = std::mem::replace(word, *word | more);
    *word != old
}

impl<'a> Solver<'a> {
    fn new(subject: &'a Subject<'a>, lock: u8) -> Solver<'a> {
        let (app, sets) = (subject.app, subject.graph.sets.len());
        let lens: Vec<_> = app
            .methods
            .iter()
            .zip(&subject.reached)
            .map(|(method, &reached)| if reached { method.code.steps.len() } else { 0 })
            .collect();
        Solver {
            subject,
            lock,
            solution: Solution {
                at: lens.iter().map(|&len| vec![0; len]).collect(),
                returned: vec![0; app.methods.len()],
                set_returned: vec![0; sets],
                set_thrown: vec![0; sets],
                views: vec![0; subject.list.len()],
            },
            thrown: vec![0; app.methods.len()],
            entered: vec![0; sets],
            waits: lens.iter().map(|&len| vec![false; len]).collect(),
            todo: Vec::new(),
        }
    }

    fn wake(&mut self, (method, index): Place) {
        if !std::mem::replace(&mut self.waits[method as usize][index as usize], true) {
            self.todo.push((method, index));
        }
    }

    fn join(&mut self, (method, index): Place, more: u64) {
        let word = self.solution.at[method as usize].get_mut(index as usize);
        if word.is_some_and(|word| add(word, more)) {
            self.wake((method, index));
        }
    }

    /// Wakes all calls of the sets that have a method, where they hear something new.
    fn tell(&mut self, method: u32, word: u64, is_throw: bool) {
        let subject = self.subject;
        for &set in &subject.calls.sets_with[method as usize] {
            let words = if is_throw { &mut self.solution.set_thrown } else { &mut self.solution.set_returned };
            if add(&mut words[set as usize], word) && self.entered[set as usize] != 0 {
                for &place in &subject.callers[set as usize] {
                    if self.solution.at[place.0 as usize][place.1 as usize] != 0 {
                        self.wake(place);
                    }
                }
            }
        }
    }

    fn throw(&mut self, (method, index): Place, word: u64) {
        let code = &self.subject.app.methods[method as usize].code;
        for &to in code.handlers(index as usize) {
            self.join((method, to), word);
        }
        if code.may_leave(index as usize) && add(&mut self.thrown[method as usize], word) {
            self.tell(method, self.thrown[method as usize], true);
        }
    }

    fn call(&mut self, place: Place, number: u32, word: u64) {
        let (subject, (method, index)) = (self.subject, place);
        let targets = subject.graph.targets(number);
        if targets.callees.is_empty() {
            return;
        }
        let row = subject.tags.row(subject.app, method, index);
        let opened = then(word, open(&subject.app.calls[number as usize], row, self.lock));
        let set = subject.graph.set_of[number as usize] as usize;
        let entry = itself(image(opened));
        if add(&mut self.entered[set], entry) {
            for &callee in &targets.callees {
                self.join((callee, 0), entry);
            }
        }
        let back = then(opened, self.solution.set_returned[set]);
        for &to in subject.app.methods[method as usize].code.successors(index as usize) {
            self.join((method, to), back);
        }
        self.throw(place, then(opened, self.solution.set_thrown[set]));
    }

    fn visit(&mut self, place: Place) {
        let (subject, (method, index)) = (self.subject, place);
        self.waits[method as usize][index as usize] = false;
        let word = self.solution.at[method as usize][index as usize];
        let code = &subject.app.methods[method as usize].code;
        let act = code.steps[index as usize].act;
        let outside = matches!(act, Act::Call(number) if subject.graph.targets(number).outside);
        let effect = Effect::of(subject.app, act, outside, subject.tags.row(subject.app, method, index), self.lock);
        for (number, &to) in code.successors(index as usize).iter().enumerate() {
            self.join((method, to), then(word, effect.pass(number)));
        }
        if effect.throws != 0 {
            self.throw(place, then(word, effect.throws));
        }
        match act {
            Act::Call(number) => self.call(place, number, word),
            Act::Return(_) if add(&mut self.solution.returned[method as usize], word) => {
                self.tell(method, self.solution.returned[method as usize], false);
            }
            _ => {}
        }
    }

    fn run(&mut self) {
        while let Some(place) = self.todo.pop() {
            self.visit(place);
        }
    }

    /// One component begins, its callbacks start, and lead on where they return; the others see it.
    fn take_edges(&mut self, number: usize) -> bool {
        let component = &self.subject.list[number];
        let mut changed = add(&mut self.solution.views[number], 1);
        let mut moves = 0;
        for edge in component.kind.edges() {
            let seen = (self.solution.views[number] >> (8 * edge.from)) as u8;
            let enters = entering(self.subject, self.lock, number, &edge);
            if let Some(method) = component.methods[edge.callback] {
                self.join((method, 0), itself(lead(seen, enters)));
            }
            let carries = self.solution.carries(self.subject, self.lock, number, &edge);
            changed |= add(&mut self.solution.views[number], u64::from(lead(seen, carries)) << (8 * edge.to));
            moves |= then(itself(seen), carries);
        }
        for (other, view) in self.solution.views.iter_mut().enumerate() {
            changed |= other != number && add(view, then(*view, moves));
        }
        changed
    }
}

/// The status at which an edge begins its callback.
fn entering(subject: &Subject, lock: u8, component: usize, edge: &Edge) -> u64 {
    if edge.creates && subject.owners[usize::from(lock)] == Some(component) { CLEAR } else { SAME }
}

impl Solution {
    pub fn least(subject: &Subject, lock: u8) -> Solution {
        let mut solver = Solver::new(subject, lock);
        loop {
            let mut changed = false;
            for number in 0..subject.list.len() {
                changed |= solver.take_edges(number);
            }
            if !changed && solver.todo.is_empty() {
                return solver.solution;
            }
            solver.run();
        }
    }

    /// Where an edge of a component leads each status.
    pub fn carries(&self, subject: &Subject, lock: u8, component: usize, edge: &Edge) -> u64 {
        let enters = entering(subject, lock, component, edge);
        match subject.list[component].methods[edge.callback] {
            Some(method) => then(enters, self.returned[method as usize]),
            None => enters,
        }
    }

    /// The statuses of a component at which a callback ends.
    pub fn ends(&self, subject: &Subject, lock: u8, component: usize, callback: usize) -> u8 {
        let edges = subject.list[component].kind.edges();
        edges.iter().filter(|edge| edge.callback == callback).fold(0, |mask, edge| {
            let seen = (self.views[component] >> (8 * edge.from)) as u8;
            mask | lead(seen, self.carries(subject, lock, component, edge))
        })
    }
}
