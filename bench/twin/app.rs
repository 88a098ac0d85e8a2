//! Several files as one application: types, classes, members and code, each by number.

use crate::act::Args;
use crate::code::{Code, Names, build};
use crate::dex::{Dex, Member, Members};
use std::collections::HashMap;
use std::hash::Hash;

/// Numbers values in the order in which they are first seen.
pub struct Numbers<T> {
    of: HashMap<T, u32>,
    pub rows: Vec<T>,
}

impl<T: Clone + Eq + Hash> Numbers<T> {
    fn new() -> Numbers<T> {
        Numbers { of: HashMap::new(), rows: Vec::new() }
    }

    fn number(&mut self, value: T) -> u32 {
        *self.of.entry(value.clone()).or_insert_with(|| {
            self.rows.push(value);
            self.rows.len() as u32 - 1
        })
    }

    pub fn find(&self, value: &T) -> Option<u32> {
        self.of.get(value).copied()
    }
}

/// The result type and those of the parameters.
type Proto = (u32, Vec<u32>);

pub struct Class {
    pub kind: u32,
    pub parent: Option<u32>,
    pub interfaces: Vec<u32>,
}

pub struct Field {
    pub class: u32,
    pub name: u32,
    pub kind: u32,
    pub flags: u32,
}

pub struct Method {
    pub class: u32,
    pub name: u32,
    pub proto: u32,
    pub flags: u32,
    pub code: Code,
}

/// The class, the name and the prototype that a call names.
#[derive(Clone, Copy, PartialEq, Eq, Hash)]
pub struct Named {
    pub class: u32,
    pub name: u32,
    pub proto: u32,
}

#[derive(Clone, Copy, PartialEq, Eq, Hash)]
pub enum By {
    Virtual,
    Super,
    Direct,
    Static,
}

/// What a call is to the wake locks.
#[derive(Clone, Copy, PartialEq, Eq)]
pub enum Usage {
    Plain,
    /// By the number of its site.
    Make(u8),
    Acquire,
    Release,
    IsHeld,
    Mode,
    Wrong,
}

impl Usage {
    pub fn is_lock_call(self) -> bool {
        matches!(self, Usage::Acquire | Usage::Release | Usage::IsHeld | Usage::Mode)
    }
}

pub struct Call {
    pub method: u32,
    pub named: Named,
    pub by: By,
    pub usage: Usage,
    pub args: Args,
}

pub struct App<'a> {
    pub types: Numbers<&'a [u8]>,
    pub names: Numbers<&'a [u8]>,
    pub protos: Numbers<Proto>,
    pub classes: Vec<Class>,
    pub fields: Vec<Field>,
    pub methods: Vec<Method>,
    /// The lock fields.
    pub locks: Vec<u32>,
    pub calls: Vec<Call>,
    /// The methods that are not abstract, by class, name and prototype: the first of each.
    declared: HashMap<(u32, u32, u32), u32>,
    /// The class of each type.
    class_of: Vec<Option<u32>>,
    lock_of: HashMap<(u32, u32), u8>,
    sites: u8,
}

const WAKE_LOCK: &[u8] = b"Landroid/os/PowerManager$WakeLock;";
const STATIC: u32 = 8;
pub const ABSTRACT: u32 = 0x400;

/// The numbers in the application for those of one file.
struct FileNumbers {
    types: Vec<u32>,
    names: Vec<u32>,
    protos: Vec<u32>,
}

impl<'a> App<'a> {
    pub fn link(files: &[&'a [u8]]) -> App<'a> {
        let mut app = App::empty();
        let files: Vec<_> = files.iter().map(|bytes| Dex::read(bytes)).collect();
        let numbers: Vec<_> = files.iter().map(|file| app.number(file)).collect();
        app.class_of = vec![None; app.types.rows.len()];
        let mut members = Vec::new();
        for (file, numbers) in files.iter().zip(&numbers) {
            members.push(app.add_classes(file, numbers));
        }
        app.add_locks();
        for ((file, numbers), members) in files.iter().zip(&numbers).zip(&members) {
            app.add_code(file, numbers, members);
        }
        app
    }

    fn empty() -> App<'a> {
        App {
            types: Numbers::new(),
            names: Numbers::new(),
            protos: Numbers::new(),
            classes: Vec::new(),
            fields: Vec::new(),
            methods: Vec::new(),
            locks: Vec::new(),
            calls: Vec::new(),
            declared: HashMap::new(),
            class_of: Vec::new(),
            lock_of: HashMap::new(),
            sites: 0,
        }
    }

    fn number(&mut self, file: &Dex<'a>) -> FileNumbers {
        let names = file.strings.iter().map(|text| self.names.number(text)).collect();
        let types: Vec<_> = file.types.iter().map(|&text| self.types.number(file.strings[text as usize])).collect();
        let proto = |proto: &crate::dex::ProtoId| {
            let params = proto.params.iter().map(|&kind| types[usize::from(kind)]).collect();
            self.protos.number((types[proto.result as usize], params))
        };
        let protos = file.protos.iter().map(proto).collect();
        FileNumbers { types, names, protos }
    }

    /// The classes and their members, as yet without code.
    fn add_classes(&mut self, file: &Dex, numbers: &FileNumbers) -> Vec<(u32, Members)> {
        let mut all = Vec::new();
        for row in &file.classes {
            let (class, members) = (self.classes.len() as u32, file.members(row));
            let kind = numbers.types[row.kind as usize];
            self.class_of[kind as usize] = Some(class);
            let parent = row.parent.map(|parent| numbers.types[parent as usize]);
            let interfaces = row.interfaces.iter().map(|&kind| numbers.types[usize::from(kind)]).collect();
            self.classes.push(Class { kind, parent, interfaces });
            for Member { id, flags, .. } in &members.fields {
                let (id, flags) = (&file.fields[*id as usize], *flags);
                let (name, kind) = (numbers.names[id.name as usize], numbers.types[usize::from(id.kind)]);
                self.fields.push(Field { class, name, kind, flags });
            }
            all.push((class, members));
        }
        all
    }

    fn add_locks(&mut self) {
        for (number, field) in self.fields.iter().enumerate() {
            if self.types.rows[field.kind as usize] == WAKE_LOCK {
                self.lock_of.entry((field.class, field.name)).or_insert(self.locks.len() as u8);
                self.locks.push(number as u32);
            }
        }
    }

    fn add_code(&mut self, file: &Dex, numbers: &FileNumbers, members: &[(u32, Members)]) {
        for (class, members) in members {
            for &Member { id, flags, code } in &members.methods {
                let id = &file.methods[id as usize];
                let code = match code {
                    0 => Code::none(),
                    at => build(&file.code(at), &mut InFile { app: self, file, numbers }),
                };
                let (name, proto) = (numbers.names[id.name as usize], numbers.protos[usize::from(id.kind)]);
                if flags & ABSTRACT == 0 {
                    self.declared.entry((*class, name, proto)).or_insert(self.methods.len() as u32);
                }
                self.methods.push(Method { class: *class, name, proto, flags, code });
            }
        }
    }

    pub fn class_of(&self, kind: u32) -> Option<u32> {
        self.class_of[kind as usize]
    }

    pub fn superclass(&self, class: u32) -> Option<u32> {
        self.class_of(self.classes[class as usize].parent?)
    }

    /// A class and its superclasses in the application, nearest first.
    pub fn line(&self, class: Option<u32>) -> impl Iterator<Item = u32> {
        std::iter::successors(class, |&class| self.superclass(class))
    }

    /// The nearest method in a class and above it.
    pub fn look_up(&self, class: Option<u32>, name: u32, proto: u32) -> Option<u32> {
        self.line(class).find_map(|class| self.declared.get(&(class, name, proto)).copied())
    }

    pub fn text_of_type(&self, kind: u32) -> &'a [u8] {
        self.types.rows[kind as usize]
    }

    pub fn text_of_name(&self, name: u32) -> &'a [u8] {
        self.names.rows[name as usize]
    }

    pub fn is_static(&self, lock: u8) -> bool {
        self.fields[self.locks[usize::from(lock)] as usize].flags & STATIC != 0
    }

    fn is_proto(&self, proto: u32, result: &[u8], params: &[&[u8]]) -> bool {
        let (own, kinds) = &self.protos.rows[proto as usize];
        self.text_of_type(*own) == result && kinds.iter().map(|&kind| self.text_of_type(kind)).eq(params.iter().copied())
    }

    /// What a call is to the wake locks; `site` is the number of the next site.
    fn usage(&self, named: Named, is_virtual: bool, site: u8) -> Usage {
        let (class, name) = (self.text_of_type(named.class), self.text_of_name(named.name));
        let has = |result, params| self.is_proto(named.proto, result, params);
        if class == WAKE_LOCK {
            return match name {
                _ if !is_virtual => Usage::Wrong,
                b"acquire" if has(b"V", &[]) || has(b"V", &[b"J"]) => Usage::Acquire,
                b"release" if has(b"V", &[]) || has(b"V", &[b"I"]) => Usage::Release,
                b"isHeld" if has(b"Z", &[]) => Usage::IsHeld,
                b"setReferenceCounted" if has(b"V", &[b"Z"]) => Usage::Mode,
                _ => Usage::Wrong,
            };
        }
        if class != b"Landroid/os/PowerManager;" || name != b"newWakeLock" {
            return Usage::Plain;
        }
        if is_virtual && has(WAKE_LOCK, &[b"I", b"Ljava/lang/String;"]) { Usage::Make(site) } else { Usage::Wrong }
    }
}

/// The application as the code of one file sees it.
struct InFile<'f, 'a> {
    app: &'f mut App<'a>,
    file: &'f Dex<'f>,
    numbers: &'f FileNumbers,
}

impl Names for InFile<'_, '_> {
    fn lock(&self, field: u16) -> Option<u8> {
        let id = &self.file.fields[usize::from(field)];
        let (class, kind) = (self.numbers.types[usize::from(id.class)], self.numbers.types[usize::from(id.kind)]);
        if self.app.text_of_type(kind) != WAKE_LOCK {
            return None;
        }
        let name = self.numbers.names[id.name as usize];
        self.app.line(self.app.class_of(class)).find_map(|class| self.app.lock_of.get(&(class, name)).copied())
    }

    fn kind(&self, kind: u16) -> u32 {
        self.numbers.types[usize::from(kind)]
    }

    fn is_throwable(&self, kind: u32) -> bool {
        self.app.text_of_type(self.numbers.types[kind as usize]) == b"Ljava/lang/Throwable;"
    }

    fn call(&mut self, op: u8, method: u16, args: Args) -> u32 {
        let id = &self.file.methods[usize::from(method)];
        let named = Named {
            class: self.numbers.types[usize::from(id.class)],
            name: self.numbers.names[id.name as usize],
            proto: self.numbers.protos[usize::from(id.kind)],
        };
        let by = match op {
            0x6F | 0x75 => By::Super,
            0x70 | 0x76 => By::Direct,
            0x71 | 0x77 => By::Static,
            _ => By::Virtual,
        };
        let usage = self.app.usage(named, matches!(op, 0x6E | 0x74), self.app.sites);
        self.app.sites += u8::from(matches!(usage, Usage::Make(_)));
        let method = self.app.methods.len() as u32;
        self.app.calls.push(Call { method, named, by, usage, args });
        self.app.calls.len() as u32 - 1
    }
}
