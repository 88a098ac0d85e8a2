//! The tables of a DEX 035 file. The file is taken to be sound: a number out of range ends the program.

/// A place in the bytes from which numbers are read one after the other.
pub struct Cursor<'a> {
    bytes: &'a [u8],
    pub at: usize,
}

impl Cursor<'_> {
    fn u8(&mut self) -> u8 {
        self.at += 1;
        self.bytes[self.at - 1]
    }

    pub fn u16(&mut self) -> u16 {
        u16::from(self.u8()) | u16::from(self.u8()) << 8
    }

    pub fn u32(&mut self) -> u32 {
        u32::from(self.u16()) | u32::from(self.u16()) << 16
    }

    pub fn uleb(&mut self) -> u32 {
        let (mut value, mut shift) = (0, 0);
        loop {
            let byte = self.u8();
            value |= u32::from(byte & 127) << shift;
            if byte < 128 {
                return value;
            }
            shift += 7;
        }
    }

    pub fn sleb(&mut self) -> i32 {
        let from = self.at;
        let value = self.uleb() as i32;
        let unused = 32u32.saturating_sub(7 * (self.at - from) as u32);
        value << unused >> unused
    }
}

pub struct ProtoId {
    pub result: u32,
    pub params: Vec<u16>,
}

/// A field or a method: `kind` is its type or its prototype.
pub struct MemberId {
    pub class: u16,
    pub kind: u16,
    pub name: u32,
}

pub struct ClassDef {
    pub kind: u32,
    pub parent: Option<u32>,
    pub interfaces: Vec<u16>,
    members: usize,
}

/// A field or a method that a class has; `code` is 0 where there is none.
pub struct Member {
    pub id: u32,
    pub flags: u32,
    pub code: usize,
}

/// Statics before instances, directs before virtuals.
pub struct Members {
    pub fields: Vec<Member>,
    pub methods: Vec<Member>,
}

pub struct Try {
    pub start: u32,
    pub end: u32,
    /// Caught types, none for every throw, with the address of each handler.
    pub handlers: Vec<(Option<u32>, u32)>,
}

pub struct CodeItem {
    pub registers: u16,
    pub ins: u16,
    pub units: Vec<u16>,
    pub tries: Vec<Try>,
}

pub struct Dex<'a> {
    bytes: &'a [u8],
    pub strings: Vec<&'a [u8]>,
    pub types: Vec<u32>,
    pub protos: Vec<ProtoId>,
    pub fields: Vec<MemberId>,
    pub methods: Vec<MemberId>,
    pub classes: Vec<ClassDef>,
}

fn cursor(bytes: &[u8], at: usize) -> Cursor<'_> {
    Cursor { bytes, at }
}

/// The rows of table number `table`, each read by `row`.
fn rows<'a, T>(bytes: &'a [u8], table: usize, mut row: impl FnMut(&mut Cursor<'a>) -> T) -> Vec<T> {
    let mut head = cursor(bytes, 56 + 8 * table);
    let (count, at) = (head.u32(), head.u32() as usize);
    let mut place = cursor(bytes, at);
    (0..count).map(|_| row(&mut place)).collect()
}

fn string_at(bytes: &[u8], at: usize) -> &[u8] {
    let mut place = cursor(bytes, at);
    place.uleb();
    let text = &bytes[place.at..];
    let end = text.iter().position(|&byte| byte == 0).expect("a string ends");
    &text[..end]
}

fn type_list(bytes: &[u8], at: u32) -> Vec<u16> {
    if at == 0 {
        return Vec::new();
    }
    let mut place = cursor(bytes, at as usize);
    (0..place.u32()).map(|_| place.u16()).collect()
}

fn member_id(place: &mut Cursor) -> MemberId {
    MemberId { class: place.u16(), kind: place.u16(), name: place.u32() }
}

fn class_def(bytes: &[u8], place: &mut Cursor) -> ClassDef {
    let [kind, _, parent, interfaces, _, _, members, _] = std::array::from_fn(|_| place.u32());
    ClassDef {
        kind,
        parent: (parent != u32::MAX).then_some(parent),
        interfaces: type_list(bytes, interfaces),
        members: members as usize,
    }
}

/// A list of members: each number is told by its difference to the one before it.
fn member_list(place: &mut Cursor, count: u32, has_code: bool) -> Vec<Member> {
    let mut id = 0;
    let mut member = || {
        id += place.uleb();
        let flags = place.uleb();
        let code = if has_code { place.uleb() as usize } else { 0 };
        Member { id, flags, code }
    };
    (0..count).map(|_| member()).collect()
}

fn handler_list(place: &mut Cursor) -> Vec<(Option<u32>, u32)> {
    let size = place.sleb();
    let mut handlers: Vec<_> = (0..size.unsigned_abs()).map(|_| (Some(place.uleb()), place.uleb())).collect();
    if size <= 0 {
        handlers.push((None, place.uleb()));
    }
    handlers
}

impl<'a> Dex<'a> {
    pub fn read(bytes: &'a [u8]) -> Dex<'a> {
        assert!(bytes.starts_with(b"dex\n035\0"), "a DEX 035 file");
        Dex {
            bytes,
            strings: rows(bytes, 0, |place| string_at(bytes, place.u32() as usize)),
            types: rows(bytes, 1, |place| place.u32()),
            protos: rows(bytes, 2, |place| {
                let [_, result, params] = std::array::from_fn(|_| place.u32());
                ProtoId { result, params: type_list(bytes, params) }
            }),
            fields: rows(bytes, 3, member_id),
            methods: rows(bytes, 4, member_id),
            classes: rows(bytes, 5, |place| class_def(bytes, place)),
        }
    }

    pub fn members(&self, class: &ClassDef) -> Members {
        if class.members == 0 {
            return Members { fields: Vec::new(), methods: Vec::new() };
        }
        let mut place = cursor(self.bytes, class.members);
        let [statics, instances, directs, virtuals] = std::array::from_fn(|_| place.uleb());
        let mut fields = member_list(&mut place, statics, false);
        fields.extend(member_list(&mut place, instances, false));
        let mut methods = member_list(&mut place, directs, true);
        methods.extend(member_list(&mut place, virtuals, true));
        Members { fields, methods }
    }

    pub fn code(&self, at: usize) -> CodeItem {
        let mut place = cursor(self.bytes, at);
        let [registers, ins, _, tries] = std::array::from_fn(|_| place.u16());
        place.u32();
        let units = (0..place.u32()).map(|_| place.u16()).collect::<Vec<u16>>();
        if tries > 0 && units.len() % 2 == 1 {
            place.u16();
        }
        let lists = place.at + 8 * usize::from(tries);
        let one_try = |place: &mut Cursor| {
            let (start, count, offset) = (place.u32(), u32::from(place.u16()), usize::from(place.u16()));
            let handlers = handler_list(&mut cursor(self.bytes, lists + offset));
            Try { start, end: start + count, handlers }
        };
        let tries = (0..tries).map(|_| one_try(&mut place)).collect();
        CodeItem { registers, ins, units, tries }
    }
}
