//! The ten rules of scope: where an application breaks one, so that nothing is said of its locks.

use crate::act::{Act, Throws};
use crate::app::{App, By, Call, Usage};
use crate::code::Step;
use crate::components::{Component, Kind};
use crate::hierarchy::Hierarchy;
use crate::reach::Calls;
use crate::tag::Tag;
use crate::tags::{Row, Tags, receiver};
use crate::targets::CallGraph;

const NATIVE: u32 = 0x100;
const THREADS: [&[u8]; 8] = [
    b"Ljava/lang/Thread;",
    b"Ljava/util/Timer;",
    b"Ljava/util/concurrent/Executor;",
    b"Ljava/util/concurrent/ExecutorService;",
    b"Ljava/util/concurrent/ThreadPoolExecutor;",
    b"Landroid/os/AsyncTask;",
    b"Landroid/os/HandlerThread;",
    b"Landroid/app/IntentService;",
];
const LOADERS: [&[u8]; 3] = [b"Ljava/lang/ClassLoader;", b"Ldalvik/system/DexClassLoader;", b"Ldalvik/system/PathClassLoader;"];

/// A broken rule by its number, with method and place.
pub type Break = (u8, u32, u32);

/// An application with all that its scope depends on.
pub struct Case<'a> {
    pub app: &'a App<'a>,
    pub hierarchy: &'a Hierarchy,
    pub graph: &'a CallGraph,
    pub calls: &'a Calls,
    pub list: &'a [Component],
    pub tags: &'a Tags,
    pub reached: Vec<bool>,
}

fn loads_or_reflects(class: &[u8], name: &[u8]) -> Option<u8> {
    match class {
        b"Ljava/lang/System;" if matches!(name, b"load" | b"loadLibrary") => Some(1),
        b"Ljava/lang/Class;" if matches!(name, b"forName" | b"newInstance") => Some(2),
        _ if class.starts_with(b"Ljava/lang/reflect/") || LOADERS.contains(&class) => Some(2),
        _ => None,
    }
}

fn is_callback_name(name: &[u8]) -> bool {
    name == b"run" || matches!(name, [b'o', b'n', b'A'..=b'Z', ..])
}

fn may_be_lock(tag: Tag) -> bool {
    matches!(tag, Tag::Field(_) | Tag::New(_) | Tag::Mixed)
}

fn call_escapes(call: &Call, row: &Row) -> bool {
    let is_lock_call = call.usage.is_lock_call();
    let may_pass = |(place, register): (usize, u16)| match row[usize::from(register)] {
        Tag::Field(_) if is_lock_call && place == 0 => true,
        tag => !may_be_lock(tag),
    };
    !call.args.iter().enumerate().all(may_pass)
}

fn escapes(app: &App, act: Act, row: &Row) -> bool {
    let tag = |register: u16| row[usize::from(register)];
    match act {
        Act::Call(call) => call_escapes(&app.calls[call as usize], row),
        Act::WriteLock { from, .. } => !matches!(tag(from), Tag::Bot | Tag::Zero | Tag::New(_)),
        Act::Give { from, .. } | Act::Throw(from) => may_be_lock(tag(from)),
        Act::Fill(args) => args.iter().any(|register| may_be_lock(tag(register))),
        _ => false,
    }
}

impl Case<'_> {
    fn is_native(&self, method: u32) -> bool {
        self.app.methods[method as usize].flags & NATIVE != 0
    }

    fn threads(&self) -> Vec<bool> {
        let mut threads = vec![false; self.app.types.rows.len()];
        for kind in THREADS.iter().filter_map(|name| self.app.types.find(name)) {
            for (thread, below) in threads.iter_mut().zip(self.hierarchy.below(self.app, kind)) {
                *thread |= below;
            }
        }
        threads
    }

    /// The rules that a call in a reached method breaks.
    fn in_call(&self, number: u32, row: &Row, threads: &[bool]) -> Vec<u8> {
        let call = &self.app.calls[number as usize];
        let (class, name) = (self.app.text_of_type(call.named.class), self.app.text_of_name(call.named.name));
        let mut rules: Vec<u8> = loads_or_reflects(class, name).into_iter().collect();
        if self.graph.targets(number).callees.iter().any(|&callee| self.is_native(callee)) {
            rules.push(1);
        }
        let on_thread = call.by != By::Static && threads[call.named.class as usize];
        if on_thread || class == b"Ljava/util/concurrent/Executors;" {
            rules.push(3);
        }
        let on_no_lock = call.usage.is_lock_call() && matches!(receiver(row, call.args), Tag::Solid | Tag::Any | Tag::Held(_));
        if on_no_lock || call.usage == Usage::Wrong {
            rules.push(5);
        }
        rules
    }

    /// The lock fields with which every access breaks a rule.
    fn without_owner(&self) -> Vec<bool> {
        let made = |below: &[bool]| {
            let methods = self.app.methods.iter().zip(&self.reached).filter(|(_, reached)| **reached);
            let mut steps = methods.flat_map(|(method, _)| &method.code.steps);
            steps.any(|step| matches!(step.act, Act::New { kind, .. } if below[kind as usize]))
        };
        let lacks_owner = |(lock, &field): (u8, &u32)| {
            let class = self.app.fields[field as usize].class;
            let below = self.hierarchy.below(self.app, self.app.classes[class as usize].kind);
            let kind_of = |component: &&Component| self.app.classes[component.class as usize].kind;
            let lasting = self.list.iter().filter(|component| component.kind != Kind::Runnable);
            let owners = lasting.filter(|component| below[kind_of(component) as usize]).count();
            !self.app.is_static(lock) && (owners != 1 || made(&below))
        };
        (0..).zip(&self.app.locks).map(lacks_owner).collect()
    }

    /// The rules that are broken in reached methods.
    fn in_reached(&self, found: &mut Vec<Break>) {
        let (threads, unowned) = (self.threads(), self.without_owner());
        let mut stored = vec![false; self.app.locks.len()];
        for (number, method) in (0..).zip(&self.app.methods).filter(|&(number, _)| self.reached[number as usize]) {
            for (index, step) in (0..).zip(&method.code.steps) {
                let row = self.tags.row(self.app, number, index);
                let mut rules = Vec::new();
                match step.act {
                    Act::Call(call) => rules = self.in_call(call, row, &threads),
                    Act::New { kind, .. } if threads[kind as usize] => rules.push(3),
                    Act::WriteLock { from, lock, .. } if matches!(row[usize::from(from)], Tag::New(_)) => {
                        if std::mem::replace(&mut stored[usize::from(lock)], true) {
                            rules.push(6);
                        }
                    }
                    _ => {}
                }
                if let Act::ReadLock { lock, throws, .. } | Act::WriteLock { lock, throws, .. } = step.act {
                    let is_static = matches!(throws, Throws::Never);
                    if unowned[usize::from(lock)] || is_static != self.app.is_static(lock) {
                        rules.push(7);
                    }
                }
                if escapes(self.app, step.act, row) {
                    rules.push(4);
                }
                found.extend(rules.into_iter().map(|rule| (rule, number, step.pc)));
            }
        }
    }

    fn is_lock_step(&self, step: &Step) -> bool {
        match step.act {
            Act::ReadLock { .. } | Act::WriteLock { .. } => true,
            Act::Call(call) => self.app.calls[call as usize].usage != Usage::Plain,
            _ => false,
        }
    }

    fn name(&self, method: u32) -> &[u8] {
        self.app.text_of_name(self.app.methods[method as usize].name)
    }

    /// Whether all lock instructions of a method initialise lock fields of its own class.
    fn initialises(&self, number: u32) -> bool {
        let (method, name) = (&self.app.methods[number as usize], self.name(number));
        let is_own = |step: &Step| match step.act {
            Act::WriteLock { lock, throws, .. } => {
                let fits = if matches!(throws, Throws::Never) { b"<clinit>".as_slice() } else { b"<init>" };
                let field = self.app.locks[usize::from(lock)];
                name == fits && self.app.fields[field as usize].class == method.class
            }
            _ => false,
        };
        method.code.steps.iter().all(|step| !self.is_lock_step(step) || is_own(step))
    }

    /// The first lock instruction of each method.
    fn first_locks(&self) -> Vec<Option<u32>> {
        let first = |steps: &[Step]| steps.iter().find(|step| self.is_lock_step(step)).map(|step| step.pc);
        self.app.methods.iter().map(|method| first(&method.code.steps)).collect()
    }

    /// Whether a listed component's class is or inherits a class.
    fn is_above(&self, class: u32) -> bool {
        let below = self.hierarchy.below(self.app, self.app.classes[class as usize].kind);
        self.list.iter().any(|component| below[self.app.classes[component.class as usize].kind as usize])
    }

    /// The rules that are broken by locks where no callback leads.
    fn past_reached(&self, found: &mut Vec<Break>) {
        let first = self.first_locks();
        let touches = |number: u32| first[number as usize].is_some() && !self.initialises(number);
        let bits = |number: u32| u64::from(first[number as usize].is_some()) | u64::from(touches(number)) << 1;
        let (below, _) = self.calls.gather(self.graph, (0..first.len() as u32).map(bits).collect());
        for (number, method) in (0..).zip(&self.app.methods) {
            let (name, is_reached, below) = (self.name(number), self.reached[number as usize], below[number as usize]);
            let is_class_init = name == b"<clinit>";
            match first[number as usize] {
                Some(pc) if !is_reached && !is_class_init && touches(number) => found.push((8, number, pc)),
                _ => {}
            }
            if !is_reached && is_callback_name(name) && below != 0 {
                found.push((9, number, 0));
            }
            let begins = is_class_init || (name == b"<init>" && !is_reached && self.is_above(method.class));
            if begins && below & 2 != 0 {
                found.push((10, number, 0));
            }
        }
    }

    /// The first rule that is broken, by rule, method and place.
    pub fn first_break(&self) -> Option<Break> {
        let entries = self.list.iter().flat_map(|component| component.methods.iter().flatten());
        let mut found: Vec<Break> = entries.filter(|&&entry| self.is_native(entry)).map(|&entry| (1, entry, 0)).collect();
        self.in_reached(&mut found);
        self.past_reached(&mut found);
        found.into_iter().min()
    }
}
