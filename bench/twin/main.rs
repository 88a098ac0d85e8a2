//! The analysis of `nosleep` as a plain Rust program, written from docs/analysis.md and docs/formats.md alone: it reads DEX files
//! and a component list, and computes for each lock field the least solution of the flow rules, and its violations. It looks for no
//! fault in the files: neither sums nor ranges are checked.
//!
//! usage: twin LIST DEX ..
//!
//! Writes `rule RULE PC METHOD` where a rule of scope is broken, and then no more; else `time STEP MICROSECONDS` for each step and for each lock, `size` with the numbers of methods, instructions, reached methods and
//! their instructions, `view LOCK COMPONENT STATE MASK` for each lock and state that may be, and `violation COMPONENT CALLBACK LOCK STATUS`.
mod act;
mod app;
mod code;
mod components;
mod dex;
mod hierarchy;
mod judge;
mod reach;
mod scope;
mod solve;
mod status;
mod tag;
mod tags;
mod targets;

use app::App;
use components::Component;
use hierarchy::Hierarchy;
use judge::{Subject, entries, violations};
use reach::Calls;
use scope::{Break, Case};
use solve::Solution;
use std::time::Instant;
use tags::Tags;
use targets::CallGraph;

/// Does a step and writes what it took.
fn timed<T>(name: &str, step: impl FnOnce() -> T) -> T {
    let start = Instant::now();
    let made = step();
    println!("time {name} {}", start.elapsed().as_micros());
    made
}

fn write_sizes(app: &App, reached: &[bool]) {
    let sizes = || app.methods.iter().map(|method| method.code.steps.len());
    let kept = reached.iter().filter(|&&reached| reached).count();
    let inside: usize = sizes().zip(reached).filter(|(_, reached)| **reached).map(|(len, _)| len).sum();
    println!("size {} {} {kept} {inside}", app.methods.len(), sizes().sum::<usize>());
}

fn solve(subject: &Subject, lock: u8) {
    let (solution, found) = timed(&format!("lock{lock}"), || {
        let solution = Solution::least(subject, lock);
        let found = violations(subject, lock, &solution);
        (solution, found)
    });
    for (component, view) in solution.views.iter().enumerate() {
        for (state, mask) in view.to_le_bytes().into_iter().enumerate().filter(|(_, mask)| *mask != 0) {
            println!("view {lock} {component} {state} {mask:02x}");
        }
    }
    for violation in found {
        println!("violation {} {} {} {}", violation.component, violation.callback, violation.lock, violation.status);
    }
}

fn write_break(app: &App, (rule, method, pc): Break) {
    let method = &app.methods[method as usize];
    let class = app.text_of_type(app.classes[method.class as usize].kind);
    let names = [class, app.text_of_name(method.name)].map(String::from_utf8_lossy);
    println!("rule {rule} {pc} {}", names.join("->"));
}

fn analyse(list: &str, files: &[&[u8]]) {
    let app = &timed("linked", || App::link(files));
    let (hierarchy, graph) = &timed("called", || {
        let hierarchy = Hierarchy::new(app);
        let graph = CallGraph::new(app, &hierarchy);
        (hierarchy, graph)
    });
    let list = &Component::read_all(app, list);
    let (calls, reached, tags) = &timed("tagged", || {
        let calls = Calls::new(app, graph);
        let reached = calls.reach(graph, entries(list));
        let tags = Tags::least(app, graph, &calls, list, &reached);
        (calls, reached, tags)
    });
    write_sizes(app, reached);
    let subject = timed("subject", || {
        let case = Case { app, hierarchy, graph, calls, list, tags, reached: reached.clone() };
        case.first_break().map_or_else(|| Ok(Subject::new(case)), Err)
    });
    match subject {
        Ok(subject) => (0..app.locks.len() as u8).for_each(|lock| solve(&subject, lock)),
        Err(broken) => write_break(app, broken),
    }
}

fn main() -> std::io::Result<()> {
    let words: Vec<_> = std::env::args().skip(1).collect();
    let [list, files @ ..] = words.as_slice() else {
        panic!("usage: twin LIST DEX ..");
    };
    let list = std::fs::read_to_string(list)?;
    let files = files.iter().map(std::fs::read).collect::<Result<Vec<_>, _>>()?;
    let files: Vec<_> = files.iter().map(Vec::as_slice).collect();
    analyse(&list, &files);
    Ok(())
}
