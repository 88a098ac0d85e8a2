//! All that the rules read of an application, and the violations.

use crate::act::Act;
use crate::app::{App, Usage};
use crate::components::{Component, Kind};
use crate::hierarchy::Hierarchy;
use crate::reach::Calls;
use crate::scope::Case;
use crate::solve::Solution;
use crate::status::HELD;
use crate::tag::Tag;
use crate::tags::{Tags, receiver};
use crate::targets::CallGraph;

pub struct Subject<'a> {
    pub app: &'a App<'a>,
    pub graph: &'a CallGraph,
    pub calls: &'a Calls,
    pub list: &'a [Component],
    pub tags: &'a Tags,
    pub reached: Vec<bool>,
    /// By set: the places of the calls in reached methods that use it.
    pub callers: Vec<Vec<(u32, u32)>>,
    /// By component: the locks that it answers for, as bits.
    pub answers: Vec<u64>,
    /// By lock: the component whose creation clears it.
    pub owners: Vec<Option<usize>>,
}

/// The methods of all callbacks.
pub fn entries(list: &[Component]) -> impl Iterator<Item = u32> {
    list.iter().flat_map(|component| component.methods.iter().flatten().copied())
}

fn callers(app: &App, graph: &CallGraph, reached: &[bool]) -> Vec<Vec<(u32, u32)>> {
    let mut callers = vec![Vec::new(); graph.sets.len()];
    for (number, method) in (0..).zip(&app.methods).filter(|&(number, _)| reached[number as usize]) {
        for (index, step) in (0..).zip(&method.code.steps) {
            if let Act::Call(call) = step.act {
                if !graph.targets(call).callees.is_empty() {
                    callers[graph.set_of[call as usize] as usize].push((number, index));
                }
            }
        }
    }
    callers
}

/// The locks that a method acquires, as bits.
fn acquired(app: &App, tags: &Tags, number: u32) -> u64 {
    let mut bits = 0;
    for (index, step) in (0..).zip(&app.methods[number as usize].code.steps) {
        let Act::Call(call) = step.act else { continue };
        let call = &app.calls[call as usize];
        if call.usage == Usage::Acquire {
            if let Tag::Field(lock) = receiver(tags.row(app, number, index), call.args) {
                bits |= 1 << lock;
            }
        }
    }
    bits
}

fn owners(app: &App, hierarchy: &Hierarchy, list: &[Component], reached: &[bool]) -> Vec<Option<usize>> {
    let mut owners = vec![None; app.locks.len()];
    let methods = app.methods.iter().zip(reached).filter(|(_, reached)| **reached);
    for step in methods.flat_map(|(method, _)| &method.code.steps) {
        let (Act::ReadLock { lock, .. } | Act::WriteLock { lock, .. }) = step.act else {
            continue;
        };
        if app.is_static(lock) || owners[usize::from(lock)].is_some() {
            continue;
        }
        let class = app.fields[app.locks[usize::from(lock)] as usize].class;
        let below = hierarchy.below(app, app.classes[class as usize].kind);
        let owns = |component: &Component| {
            component.kind != Kind::Runnable && below[app.classes[component.class as usize].kind as usize]
        };
        owners[usize::from(lock)] = list.iter().position(owns);
    }
    owners
}

impl<'a> Subject<'a> {
    pub fn new(case: Case<'a>) -> Subject<'a> {
        let Case { app, hierarchy, graph, calls, list, tags, reached } = case;
        let own = |method: u32| if reached[method as usize] { acquired(app, tags, method) } else { 0 };
        let own: Vec<u64> = (0..app.methods.len() as u32).map(own).collect();
        let answers = list.iter().map(|component| {
            let below = calls.reach(graph, component.methods.iter().flatten().copied());
            own.iter().zip(below).filter(|(_, reached)| *reached).fold(0, |bits, (own, _)| bits | own)
        });
        Subject {
            answers: answers.collect(),
            owners: owners(app, hierarchy, list, &reached),
            callers: callers(app, graph, &reached),
            app,
            graph,
            calls,
            list,
            tags,
            reached,
        }
    }
}

/// An exit of a component that is reached while a lock that it answers for is held.
pub struct Violation {
    pub component: usize,
    pub callback: usize,
    pub lock: u8,
    pub status: u8,
}

pub fn violations(subject: &Subject, lock: u8, solution: &Solution) -> Vec<Violation> {
    let mut found = Vec::new();
    for (component, row) in subject.list.iter().enumerate() {
        if subject.answers[component] >> lock & 1 == 0 {
            continue;
        }
        for callback in (0..row.exits.len()).filter(|&callback| row.exits[callback]) {
            let held = solution.ends(subject, lock, component, callback) & HELD;
            let statuses = (0..8).filter(|status| held >> status & 1 == 1);
            found.extend(statuses.map(|status| Violation { component, callback, lock, status }));
        }
    }
    found
}
