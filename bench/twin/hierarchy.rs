//! Which types stand below which, and which classes an object may have of which the files do not say all.

use crate::app::App;

pub struct Hierarchy {
    /// The classes right below each type.
    children: Vec<Vec<u32>>,
    /// Whether an unknown type stands above the class.
    unknown: Vec<bool>,
    /// The classes, each behind its superclass.
    pub order: Vec<u32>,
}

impl Hierarchy {
    pub fn new(app: &App) -> Hierarchy {
        let mut children = vec![Vec::new(); app.types.rows.len()];
        for (number, class) in (0..).zip(&app.classes) {
            for &above in class.parent.iter().chain(&class.interfaces) {
                children[above as usize].push(number);
            }
        }
        let mut hierarchy = Hierarchy { children, unknown: vec![false; app.classes.len()], order: Vec::new() };
        let mut marks = vec![false; app.classes.len()];
        for kind in 0..app.types.rows.len() as u32 {
            if app.class_of(kind).is_none() && app.text_of_type(kind) != b"Ljava/lang/Object;" {
                hierarchy.mark_below(app, kind, &mut marks);
            }
        }
        hierarchy.unknown = marks;
        hierarchy.add_order(app);
        hierarchy
    }

    /// Marks all classes below a type that are not marked yet, and lists them.
    fn mark_below(&self, app: &App, kind: u32, marks: &mut [bool]) -> Vec<u32> {
        let (mut found, mut todo) = (Vec::new(), vec![kind]);
        while let Some(kind) = todo.pop() {
            for &class in &self.children[kind as usize] {
                if !std::mem::replace(&mut marks[class as usize], true) {
                    found.push(class);
                    todo.push(app.classes[class as usize].kind);
                }
            }
        }
        found
    }

    fn add_order(&mut self, app: &App) {
        let mut placed = vec![false; app.classes.len()];
        for class in 0..app.classes.len() as u32 {
            let missing: Vec<_> = app.line(Some(class)).take_while(|&class| !placed[class as usize]).collect();
            for &class in missing.iter().rev() {
                placed[class as usize] = true;
                self.order.push(class);
            }
        }
    }

    /// The classes of the application of which the receiver of a virtual call on a type may be.
    pub fn receivers(&self, app: &App, kind: u32, marks: &mut [bool]) -> Vec<u32> {
        let mut found = self.mark_below(app, kind, marks);
        match app.class_of(kind) {
            Some(class) => {
                if !std::mem::replace(&mut marks[class as usize], true) {
                    found.push(class);
                }
            }
            None => found.extend(
                (0..).zip(&self.unknown).filter(|&(class, &unknown)| unknown && !marks[class as usize]).map(|(class, _)| class),
            ),
        }
        for &class in &found {
            marks[class as usize] = false;
        }
        found
    }

    /// The types that are the given one or stand below it, as a test on types.
    pub fn below(&self, app: &App, kind: u32) -> Vec<bool> {
        let mut marks = vec![false; app.classes.len()];
        let mut test = vec![false; app.types.rows.len()];
        test[kind as usize] = true;
        for class in self.mark_below(app, kind, &mut marks) {
            test[app.classes[class as usize].kind as usize] = true;
        }
        test
    }
}
