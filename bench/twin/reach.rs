//! What calls reach.

use crate::act::Act;
use crate::app::App;
use crate::targets::CallGraph;

/// The calls of the application by the methods that make them, and of each set by the methods that use it.
pub struct Calls {
    /// The sets that each method's calls use.
    pub used: Vec<Vec<u32>>,
    /// The sets that have each method.
    pub sets_with: Vec<Vec<u32>>,
}

impl Calls {
    pub fn new(app: &App, graph: &CallGraph) -> Calls {
        let (mut used, mut sets_with) = (vec![Vec::new(); app.methods.len()], vec![Vec::new(); app.methods.len()]);
        for (call, &set) in app.calls.iter().zip(&graph.set_of) {
            used[call.method as usize].push(set);
        }
        for sets in &mut used {
            sets.sort_unstable();
            sets.dedup();
        }
        for (number, set) in (0..).zip(&graph.sets) {
            for &method in &set.callees {
                sets_with[method as usize].push(number);
            }
        }
        Calls { used, sets_with }
    }

    /// The methods that a chain of calls reaches from these, themselves included.
    pub fn reach(&self, graph: &CallGraph, from: impl IntoIterator<Item = u32>) -> Vec<bool> {
        let mut reached = vec![false; self.used.len()];
        let mut met = vec![false; graph.sets.len()];
        let mut todo: Vec<u32> = from.into_iter().collect();
        while let Some(method) = todo.pop() {
            if std::mem::replace(&mut reached[method as usize], true) {
                continue;
            }
            for &set in &self.used[method as usize] {
                if !std::mem::replace(&mut met[set as usize], true) {
                    todo.extend(&graph.sets[set as usize].callees);
                }
            }
        }
        reached
    }

    /// Gathers bits of methods over what they reach: those that each method gets, and each set.
    pub fn gather(&self, graph: &CallGraph, mut bits: Vec<u64>) -> (Vec<u64>, Vec<u64>) {
        let mut of_set = vec![0; graph.sets.len()];
        let mut users = vec![Vec::new(); graph.sets.len()];
        for (method, sets) in (0..).zip(&self.used) {
            for &set in sets {
                users[set as usize].push(method);
            }
        }
        let mut todo: Vec<u32> = (0..bits.len() as u32).filter(|&method| bits[method as usize] != 0).collect();
        while let Some(method) = todo.pop() {
            for &set in &self.sets_with[method as usize] {
                let gained = bits[method as usize] & !of_set[set as usize];
                if gained == 0 {
                    continue;
                }
                of_set[set as usize] |= gained;
                for &user in &users[set as usize] {
                    if bits[user as usize] | gained != bits[user as usize] {
                        bits[user as usize] |= gained;
                        todo.push(user);
                    }
                }
            }
        }
        (bits, of_set)
    }

    /// The lock fields to which what a set's methods reach stores.
    pub fn stores(&self, app: &App, graph: &CallGraph) -> Vec<u64> {
        let own = |steps: &[crate::code::Step]| {
            steps.iter().fold(0, |bits, step| match step.act {
                Act::WriteLock { lock, .. } => bits | 1 << lock,
                _ => bits,
            })
        };
        self.gather(graph, app.methods.iter().map(|method| own(&method.code.steps)).collect()).1
    }
}
