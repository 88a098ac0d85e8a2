//! The component list: TOML of the few forms that it has, and the lifecycles of the four kinds.

use crate::app::App;
use std::collections::HashMap;

#[derive(Clone, Copy, PartialEq, Eq)]
pub enum Kind {
    Activity,
    Service,
    Receiver,
    Runnable,
}

pub struct Edge {
    pub from: u32,
    pub to: u32,
    pub callback: usize,
    pub creates: bool,
}

pub struct Component {
    pub class: u32,
    pub kind: Kind,
    /// By callback.
    pub exits: Vec<bool>,
    pub methods: Vec<Option<u32>>,
}

type Callback = (&'static str, &'static str, &'static [&'static str]);

const INTENT: &str = "Landroid/content/Intent;";
const ACTIVITY: [Callback; 7] = [
    ("onCreate", "V", &["Landroid/os/Bundle;"]),
    ("onStart", "V", &[]),
    ("onResume", "V", &[]),
    ("onPause", "V", &[]),
    ("onStop", "V", &[]),
    ("onRestart", "V", &[]),
    ("onDestroy", "V", &[]),
];
const SERVICE: [Callback; 7] = [
    ("onCreate", "V", &[]),
    ("onStartCommand", "I", &[INTENT, "I", "I"]),
    ("onStart", "V", &[INTENT, "I"]),
    ("onBind", "Landroid/os/IBinder;", &[INTENT]),
    ("onUnbind", "Z", &[INTENT]),
    ("onRebind", "V", &[INTENT]),
    ("onDestroy", "V", &[]),
];
const RECEIVER: [Callback; 1] = [("onReceive", "V", &["Landroid/content/Context;", INTENT])];
const RUNNABLE: [Callback; 1] = [("run", "V", &[])];

/// From, callback and to, edge by edge.
const ACTIVITY_EDGES: [(u32, usize, u32); 11] =
    [(0, 0, 1), (1, 1, 2), (1, 6, 0), (2, 2, 3), (2, 4, 5), (3, 3, 4), (4, 2, 3), (4, 4, 5), (5, 5, 6), (5, 6, 0), (6, 1, 2)];
const SERVICE_EDGES: [(u32, usize, u32); 7] = [(0, 0, 1), (1, 1, 1), (1, 2, 1), (1, 3, 1), (1, 4, 1), (1, 5, 1), (1, 6, 0)];

impl Kind {
    fn named(text: &str) -> Kind {
        match text {
            "activity" => Kind::Activity,
            "service" => Kind::Service,
            "receiver" => Kind::Receiver,
            "runnable" => Kind::Runnable,
            _ => panic!("no kind of component: {text}"),
        }
    }

    fn callbacks(self) -> &'static [Callback] {
        match self {
            Kind::Activity => &ACTIVITY,
            Kind::Service => &SERVICE,
            Kind::Receiver => &RECEIVER,
            Kind::Runnable => &RUNNABLE,
        }
    }

    pub fn edges(self) -> Vec<Edge> {
        let rows: &[_] = match self {
            Kind::Activity => &ACTIVITY_EDGES,
            Kind::Service => &SERVICE_EDGES,
            Kind::Receiver | Kind::Runnable => &[(0, 0, 0)],
        };
        let edge = |&(from, callback, to)| Edge { from, to, callback, creates: callback == 0 && self != Kind::Runnable };
        rows.iter().map(edge).collect()
    }

    fn is_default_exit(self, callback: &str) -> bool {
        match self {
            Kind::Activity => matches!(callback, "onPause" | "onStop" | "onDestroy"),
            Kind::Service => callback == "onDestroy",
            Kind::Receiver | Kind::Runnable => true,
        }
    }
}

/// The values between quotes.
fn quoted(text: &str) -> Vec<&str> {
    text.split('"').skip(1).step_by(2).collect()
}

/// The tables `component`, each by key.
fn tables(text: &str) -> Vec<HashMap<&str, Vec<&str>>> {
    let mut rows = Vec::<HashMap<_, _>>::new();
    for line in text.lines().map(str::trim) {
        if line == "[[component]]" {
            rows.push(HashMap::new());
        } else if let (Some((key, value)), Some(row), false) = (line.split_once('='), rows.last_mut(), line.starts_with('#')) {
            row.insert(key.trim(), quoted(value));
        }
    }
    rows
}

fn found(app: &App, class: u32, (name, result, params): Callback) -> Option<u32> {
    let number = |text: &str| app.types.find(&text.as_bytes());
    let name = app.names.find(&name.as_bytes())?;
    let params = params.iter().map(|param| number(param)).collect::<Option<Vec<_>>>()?;
    let proto = app.protos.find(&(number(result)?, params))?;
    app.look_up(Some(class), name, proto)
}

impl Component {
    fn bind(app: &App, row: &HashMap<&str, Vec<&str>>) -> Component {
        let (class, kind) = (row["class"][0], Kind::named(row["kind"][0]));
        let kind_of_class = app.types.find(&class.as_bytes()).and_then(|kind| app.class_of(kind));
        let class = kind_of_class.unwrap_or_else(|| panic!("no class {class}"));
        let exits = row.get("exits");
        let is_exit = |name: &str| exits.map_or_else(|| kind.is_default_exit(name), |exits| exits.contains(&name));
        Component {
            class,
            kind,
            exits: kind.callbacks().iter().map(|(name, _, _)| is_exit(name)).collect(),
            methods: kind.callbacks().iter().map(|&callback| found(app, class, callback)).collect(),
        }
    }

    pub fn read_all(app: &App, text: &str) -> Vec<Component> {
        tables(text).iter().map(|row| Component::bind(app, row)).collect()
    }
}
