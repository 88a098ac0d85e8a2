//! The least table of tags: one for each register, and the result cell, before each instruction that is reached.

use crate::act::{Act, Answer, Args, Throws};
use crate::app::{App, By, Call, Usage};
use crate::components::Component;
use crate::reach::Calls;
use crate::tag::Tag;
use crate::targets::CallGraph;

pub struct Tags {
    cells: Vec<Vec<Tag>>,
}

/// The tags before an instruction; the last one is that of the result cell.
pub type Row = [Tag];

impl Tags {
    pub fn row(&self, app: &App, method: u32, index: u32) -> &Row {
        let width = usize::from(app.methods[method as usize].code.registers) + 1;
        &self.cells[method as usize][index as usize * width..][..width]
    }
}

type Place = (u32, u32);

/// The table while it grows, and the places that are worth a look.
struct Flow<'a> {
    app: &'a App<'a>,
    graph: &'a CallGraph,
    calls: &'a Calls,
    /// By set: the lock fields to which it stores, what its callees answer, what they are handed, and who calls it.
    stores: Vec<u64>,
    answers: Vec<Tag>,
    words: Vec<Option<Vec<Tag>>>,
    callers: Vec<Vec<Place>>,
    is_caller: Vec<bool>,
    tags: Tags,
    waits: Vec<Vec<bool>>,
    todo: Vec<Place>,
}

/// The tags at the start of a method, by those of its argument words.
fn entry_row(registers: u16, ins: u16, words: &[Tag]) -> Vec<Tag> {
    let mut row = vec![Tag::Zero; usize::from(registers) + 1];
    let first = usize::from(registers - ins);
    for (cell, &word) in row[first..usize::from(registers)].iter_mut().zip(words) {
        *cell = word;
    }
    row
}

fn words_of(call: &Call, row: &Row) -> Vec<Tag> {
    let mut words: Vec<_> = call.args.iter().map(|register| row[usize::from(register)].handed_on()).collect();
    if call.by != By::Static {
        words[0] = Tag::Solid;
    }
    words
}

fn put(row: &mut [Tag], to: u16, wide: bool, tags: (Tag, Tag)) {
    row[usize::from(to)] = tags.0;
    if wide {
        row[usize::from(to) + 1] = tags.1;
    }
}

fn store(row: &mut [Tag], from: u16, lock: u8) {
    let stored = row[usize::from(from)];
    for tag in row.iter_mut() {
        *tag = tag.after_store(lock, stored);
    }
    if let Tag::New(_) = stored {
        row[usize::from(from)] = Tag::Field(lock);
    }
}

/// What an act that is no call leaves.
fn after(act: Act, row: &Row) -> Vec<Tag> {
    let (mut row, result) = (row.to_vec(), row.len() - 1);
    match act {
        Act::Copy { to, from, wide } => {
            let from = usize::from(from);
            let pair = (row[from], if wide { row[from + 1] } else { Tag::Bot });
            put(&mut row, to, wide, pair);
        }
        Act::TakeResult { to } => row[usize::from(to)] = row[result],
        Act::Write { to, tag, wide, .. } => put(&mut row, to, wide, (tag, tag)),
        Act::New { to, .. } => row[usize::from(to)] = Tag::Solid,
        Act::Fill(_) => row[result] = Tag::Solid,
        Act::ReadLock { to, lock, .. } => row[usize::from(to)] = Tag::Field(lock),
        Act::WriteLock { from, lock, .. } => store(&mut row, from, lock),
        _ => {}
    }
    row
}

pub fn receiver(row: &Row, args: Args) -> Tag {
    row[usize::from(args.receiver())]
}

/// What a call leaves where it throws, and outside the application: all but its result.
fn after_call(call: &Call, row: &Row) -> Vec<Tag> {
    match call.usage {
        Usage::Acquire | Usage::Release => {
            let receiver = receiver(row, call.args);
            row.iter().map(|tag| tag.after_count(receiver)).collect()
        }
        _ => row.to_vec(),
    }
}

/// What a call that leads outside gives.
fn given(app: &App, call: &Call, row: &Row) -> Tag {
    match call.usage {
        Usage::Make(site) => Tag::New(site),
        Usage::Acquire | Usage::Release | Usage::Mode => Tag::Zero,
        Usage::IsHeld => match receiver(row, call.args) {
            Tag::Bot => Tag::Bot,
            Tag::Field(lock) => Tag::Held(lock),
            _ => Tag::Any,
        },
        Usage::Plain | Usage::Wrong => {
            let (result, _) = app.protos.rows[call.named.proto as usize];
            if app.text_of_type(result) == b"V" { Tag::Zero } else { Tag::Any }
        }
    }
}

impl<'a> Flow<'a> {
    fn new(app: &'a App<'a>, graph: &'a CallGraph, calls: &'a Calls, reached: &[bool]) -> Flow<'a> {
        let sizes: Vec<_> = app.methods.iter().zip(reached).map(|(method, &reached)| (&method.code, reached)).collect();
        let cells = |&(code, reached): &(&crate::code::Code, bool)| {
            vec![Tag::Bot; if reached { code.steps.len() * (usize::from(code.registers) + 1) } else { 0 }]
        };
        let sets = graph.sets.len();
        Flow {
            app,
            graph,
            calls,
            stores: calls.stores(app, graph),
            answers: vec![Tag::Bot; sets],
            words: vec![None; sets],
            callers: vec![Vec::new(); sets],
            is_caller: vec![false; app.calls.len()],
            tags: Tags { cells: sizes.iter().map(cells).collect() },
            waits: sizes.iter().map(|(code, reached)| vec![false; if *reached { code.steps.len() } else { 0 }]).collect(),
            todo: Vec::new(),
        }
    }

    fn wake(&mut self, (method, index): Place) {
        if !std::mem::replace(&mut self.waits[method as usize][index as usize], true) {
            self.todo.push((method, index));
        }
    }

    fn join(&mut self, place: Place, row: &Row) {
        let (method, index) = place;
        let Some(cells) = self.tags.cells[method as usize].get_mut(index as usize * row.len()..) else {
            return;
        };
        let mut changed = false;
        for (cell, &tag) in cells.iter_mut().zip(row) {
            let joined = cell.join(tag);
            changed |= joined != *cell;
            *cell = joined;
        }
        if changed {
            self.wake(place);
        }
    }

    fn enter(&mut self, method: u32, words: &[Tag]) {
        let code = &self.app.methods[method as usize].code;
        if !code.steps.is_empty() {
            self.join((method, 0), &entry_row(code.registers, code.ins, words));
        }
    }

    fn enter_callback(&mut self, method: u32) {
        let (_, params) = &self.app.protos.rows[self.app.methods[method as usize].proto as usize];
        let wide = |&kind: &u32| matches!(self.app.text_of_type(kind), [b'J' | b'D', ..]);
        let count = params.len() + params.iter().filter(|kind| wide(kind)).count();
        let mut words = vec![Tag::Any; count + 1];
        words[0] = Tag::Solid;
        self.enter(method, &words);
    }

    fn successors(&self, (method, index): Place) -> &'a [u32] {
        self.app.methods[method as usize].code.successors(index as usize)
    }

    fn goes_on(&mut self, (method, index): Place, row: &Row) {
        for &to in self.successors((method, index)) {
            self.join((method, to), row);
        }
    }

    fn throws(&mut self, (method, index): Place, row: &Row) {
        let app = self.app;
        for &to in app.methods[method as usize].code.handlers(index as usize) {
            self.join((method, to), row);
        }
    }

    /// Hands the arguments of a call to the callees of its set.
    fn hand_over(&mut self, set: usize, words: Vec<Tag>) {
        let graph = self.graph;
        let joined = match &self.words[set] {
            Some(old) => old.iter().zip(&words).map(|(&old, &word)| old.join(word)).collect(),
            None => words,
        };
        if self.words[set].as_ref() == Some(&joined) {
            return;
        }
        for &callee in &graph.sets[set].callees {
            self.enter(callee, &joined);
        }
        self.words[set] = Some(joined);
    }

    fn visit_call(&mut self, place: Place, number: u32, row: &Row) {
        let (app, graph) = (self.app, self.graph);
        let (call, targets) = (&app.calls[number as usize], graph.targets(number));
        let mut next = after_call(call, row);
        let result = next.len() - 1;
        self.throws(place, &next);
        if targets.outside {
            next[result] = given(app, call, row);
            self.goes_on(place, &next);
        }
        if targets.callees.is_empty() {
            return;
        }
        let set = graph.set_of[number as usize] as usize;
        if !std::mem::replace(&mut self.is_caller[number as usize], true) {
            self.callers[set].push(place);
        }
        let mut next: Vec<_> = row.iter().map(|tag| tag.after_call(self.stores[set])).collect();
        self.throws(place, &next);
        next[result] = self.answers[set];
        self.goes_on(place, &next);
        self.hand_over(set, words_of(call, row));
    }

    fn visit_return(&mut self, method: u32, answer: Answer, row: &Row) {
        let calls = self.calls;
        let tag = match answer {
            Answer::Nothing => Tag::Zero,
            Answer::Wide => Tag::Any,
            Answer::Register(register) => row[usize::from(register)].handed_on(),
        };
        for &set in &calls.sets_with[method as usize] {
            let joined = self.answers[set as usize].join(tag);
            if joined != self.answers[set as usize] {
                self.answers[set as usize] = joined;
                for caller in self.callers[set as usize].clone() {
                    self.wake(caller);
                }
            }
        }
    }

    fn visit(&mut self, place: Place) {
        let (app, (method, index)) = (self.app, place);
        self.waits[method as usize][index as usize] = false;
        let row = self.tags.row(app, method, index).to_vec();
        if row.iter().all(|&tag| tag == Tag::Bot) {
            return;
        }
        match app.methods[method as usize].code.steps[index as usize].act {
            Act::Call(number) => self.visit_call(place, number, &row),
            Act::Return(answer) => self.visit_return(method, answer, &row),
            act => {
                if !matches!(act, Act::Throw(_)) {
                    self.goes_on(place, &after(act, &row));
                }
                if !matches!(act.throws(), Throws::Never) {
                    self.throws(place, &row);
                }
            }
        }
    }
}

impl Tags {
    pub fn least(app: &App, graph: &CallGraph, calls: &Calls, list: &[Component], reached: &[bool]) -> Tags {
        let mut flow = Flow::new(app, graph, calls, reached);
        for &method in list.iter().flat_map(|component| component.methods.iter().flatten()) {
            flow.enter_callback(method);
        }
        while let Some(place) = flow.todo.pop() {
            flow.visit(place);
        }
        flow.tags
    }
}
