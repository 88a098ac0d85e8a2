//! What a register is known to hold.

#[derive(Clone, Copy, PartialEq, Eq, Debug)]
pub enum Tag {
    Bot,
    Zero,
    /// Neither zero nor a lock.
    Solid,
    /// Whether the lock of a field is held.
    Held(u8),
    /// No lock.
    Any,
    /// What a lock field holds.
    Field(u8),
    /// A lock made at a site, which no field holds.
    New(u8),
    Mixed,
}

impl Tag {
    fn is_no_lock(self) -> bool {
        matches!(self, Tag::Zero | Tag::Solid | Tag::Held(_) | Tag::Any)
    }

    /// The least upper bound.
    pub fn join(self, other: Tag) -> Tag {
        match (self, other) {
            (a, b) if a == b => a,
            (Tag::Bot, tag) | (tag, Tag::Bot) => tag,
            (a, b) if a.is_no_lock() && b.is_no_lock() => Tag::Any,
            _ => Tag::Mixed,
        }
    }

    /// What is known where a call hands it on, to a callee or back.
    pub fn handed_on(self) -> Tag {
        match self {
            Tag::Held(_) => Tag::Any,
            tag => tag,
        }
    }

    /// What is left of it after a call of a method whose reach stores to the lock fields of `stores`.
    pub fn after_call(self, stores: u64) -> Tag {
        match self {
            Tag::Held(_) => Tag::Any,
            Tag::Field(lock) if stores >> lock & 1 == 1 => Tag::Mixed,
            tag => tag,
        }
    }

    /// What is left of it after a store of a value with tag `stored` into a lock field.
    pub fn after_store(self, lock: u8, stored: Tag) -> Tag {
        match (self, stored) {
            (Tag::Held(held), _) if held == lock => Tag::Any,
            (tag, Tag::Bot) => tag,
            (Tag::Field(field), _) if field == lock => Tag::Mixed,
            (Tag::New(_), Tag::Zero) => self,
            (Tag::New(site), Tag::New(other)) if site != other => self,
            (Tag::New(_), _) => Tag::Mixed,
            (tag, _) => tag,
        }
    }

    /// What is left of it after an acquire or a release of what has tag `receiver`.
    pub fn after_count(self, receiver: Tag) -> Tag {
        match (self, receiver) {
            (Tag::Held(held), Tag::Field(lock)) if held == lock => Tag::Any,
            (Tag::Held(_), Tag::Mixed) => Tag::Any,
            (tag, _) => tag,
        }
    }
}
