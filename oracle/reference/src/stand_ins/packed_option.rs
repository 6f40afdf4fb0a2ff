//! An optional entity in the room of one.

/// An entity type with one number that names none.
pub trait ReservedValue {
    fn reserved_value() -> Self;
    fn is_reserved_value(&self) -> bool;
}

#[derive(Clone, Copy, PartialEq, Eq, Hash)]
pub struct PackedOption<T: ReservedValue>(T);

impl<T: ReservedValue> PackedOption<T> {
    pub fn is_none(&self) -> bool {
        self.0.is_reserved_value()
    }

    pub fn is_some(&self) -> bool {
        !self.is_none()
    }

    /// The entry, or none.
    pub fn expand(self) -> Option<T> {
        if self.is_none() { None } else { Some(self.0) }
    }

    #[track_caller]
    pub fn unwrap(self) -> T {
        self.expand().unwrap()
    }
}

impl<T: ReservedValue> Default for PackedOption<T> {
    fn default() -> Self {
        Self(T::reserved_value())
    }
}

impl<T: ReservedValue> From<Option<T>> for PackedOption<T> {
    fn from(entry: Option<T>) -> Self {
        entry.map_or_else(Self::default, Self)
    }
}

impl<T: ReservedValue> From<PackedOption<T>> for Option<T> {
    fn from(packed: PackedOption<T>) -> Self {
        packed.expand()
    }
}
