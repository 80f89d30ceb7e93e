//! "Values and types": kinds, ownerships, type bytes, marks, the order "within", and
//! "Levels of staff": levels.

/// The kind of a value or of a type, by its number; above 5 there is none.
#[derive(Clone, Copy, PartialEq, Eq, PartialOrd, Ord, Hash, Debug)]
pub struct Kind(pub u8);

impl Kind {
    /// Whatever there is.
    pub const ANY: Kind = Kind(0);
    /// An integer or a vector: no promise.
    pub const VALUE: Kind = Kind(1);
    /// An integer.
    pub const INTEGER: Kind = Kind(2);
    /// A vector of integers.
    pub const VECTOR: Kind = Kind(3);
    /// A promise whose block is quiet.
    pub const QUIET: Kind = Kind(4);
    /// A promise whose block may be reflective.
    pub const REFLECTIVE: Kind = Kind(5);
    /// All kinds, by number.
    pub const ALL: [Kind; 6] = [
        Kind::ANY,
        Kind::VALUE,
        Kind::INTEGER,
        Kind::VECTOR,
        Kind::QUIET,
        Kind::REFLECTIVE,
    ];

    /// "Within": each kind is within itself and 0; 2 and 3 are within 1; 4 is within 5.
    pub fn within(self, wider: Kind) -> bool {
        self == wider
            || wider == Kind::ANY
            || (wider == Kind::VALUE && (self == Kind::INTEGER || self == Kind::VECTOR))
            || (wider == Kind::REFLECTIVE && self == Kind::QUIET)
    }

    /// Is this one of the six kinds?
    pub fn known(self) -> bool {
        self <= Kind::REFLECTIVE
    }
}

/// The ownership of a type, by its number; above 2 there is none.
#[derive(Clone, Copy, PartialEq, Eq, PartialOrd, Ord, Hash, Debug)]
pub struct Ownership(pub u8);

impl Ownership {
    /// Others may hold the same vector.
    pub const SHARED: Ownership = Ownership(0);
    /// Nothing else holds the vector, but for what it is lent to.
    pub const OWNED: Ownership = Ownership(1);
    /// The vector is lent for the length of a call.
    pub const BORROWED: Ownership = Ownership(2);

    /// Is this one of the three ownerships?
    pub fn known(self) -> bool {
        self <= Ownership::BORROWED
    }
}

/// A type byte: kind + 16 × ownership.
#[derive(Clone, Copy, PartialEq, Eq, PartialOrd, Ord, Hash, Debug)]
pub struct Type(pub u8);

impl Type {
    /// Any value, shared.
    pub const ANY: Type = Type::shared(Kind::ANY);
    /// An integer or a vector, shared.
    pub const VALUE: Type = Type::shared(Kind::VALUE);
    /// An integer.
    pub const INTEGER: Type = Type::shared(Kind::INTEGER);
    /// A shared vector.
    pub const VECTOR: Type = Type::shared(Kind::VECTOR);
    /// An owned vector.
    pub const OWNED: Type = Type::new(Kind::VECTOR, Ownership::OWNED);
    /// A borrowed vector.
    pub const BORROWED: Type = Type::new(Kind::VECTOR, Ownership::BORROWED);

    /// The type byte of a kind (below 16) and an ownership (below 16).
    pub const fn new(kind: Kind, ownership: Ownership) -> Type {
        Type(kind.0 + 16 * ownership.0)
    }

    /// The type byte of a shared kind.
    pub const fn shared(kind: Kind) -> Type {
        Type::new(kind, Ownership::SHARED)
    }

    /// The kind in the byte.
    pub fn kind(self) -> Kind {
        Kind(self.0 % 16)
    }

    /// The ownership in the byte.
    pub fn ownership(self) -> Ownership {
        Ownership(self.0 / 16)
    }

    /// Is the byte shared?
    pub fn is_shared(self) -> bool {
        self.ownership() == Ownership::SHARED
    }

    /// Is the byte owned?
    pub fn is_owned(self) -> bool {
        self.ownership() == Ownership::OWNED
    }

    /// Is the byte borrowed?
    pub fn is_borrowed(self) -> bool {
        self.ownership() == Ownership::BORROWED
    }

    /// May the byte stand on a parameter, or on an argument of a DISPATCH?
    pub fn allowed_on_parameter(self) -> bool {
        self.kind().known()
            && self.ownership().known()
            && (self.is_shared() || self.kind() == Kind::VECTOR)
    }

    /// May the byte stand on a register that is no parameter?
    pub fn allowed_on_register(self) -> bool {
        self.allowed_on_parameter() && !self.is_borrowed()
    }

    /// May the byte stand as a return type?
    pub fn allowed_on_return(self) -> bool {
        self.allowed_on_register()
            && [Kind::VALUE, Kind::INTEGER, Kind::VECTOR].contains(&self.kind())
    }
}

/// The level of staff that a version is for, or that a run states: 0 the tenants'
/// portal, 1 site staff, 2 the factory.
#[derive(Clone, Copy, PartialEq, Eq, PartialOrd, Ord, Hash, Debug)]
pub struct Level(pub u8);

impl Level {
    /// The tenants' portal.
    pub const PORTAL: Level = Level(0);
    /// Site staff.
    pub const STAFF: Level = Level(1);
    /// The factory.
    pub const FACTORY: Level = Level(2);
    /// All levels, from the lowest on.
    pub const ALL: [Level; 3] = [Level::PORTAL, Level::STAFF, Level::FACTORY];

    /// Is this one of the three levels?
    pub fn known(self) -> bool {
        self <= Level::FACTORY
    }

    /// The level that a run states by a number; above 2 it counts as 2.
    pub fn stated(number: usize) -> Level {
        Level(number.min(Level::FACTORY.0.into()) as u8)
    }
}

/// The mark of a block, of a version, of a call: 0 quiet, 1 reflective.
#[derive(Clone, Copy, PartialEq, Eq, PartialOrd, Ord, Hash, Debug)]
pub struct Mark(pub u8);

impl Mark {
    /// No reflective read or write happens.
    pub const QUIET: Mark = Mark(0);
    /// Reflective reads and writes may happen.
    pub const REFLECTIVE: Mark = Mark(1);

    /// Is this one of the two marks?
    pub fn known(self) -> bool {
        self <= Mark::REFLECTIVE
    }

    /// The kind of a promise whose block has this mark.
    pub fn promise(self) -> Kind {
        if self == Mark::QUIET {
            Kind::QUIET
        } else {
            Kind::REFLECTIVE
        }
    }
}
