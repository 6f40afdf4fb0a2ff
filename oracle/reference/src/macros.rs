//! Stand-ins for the macros of the crate.

macro_rules! entity_def {
    () => {};
    (
        $(#[$attr:meta])*
        $vis:vis entity $name:ident($int:ty $(, $prefix:literal)?);
        $($rest:tt)*
    ) => {
        $(#[$attr])*
        #[derive(Clone, Copy, PartialEq, Eq, PartialOrd, Ord, Hash)]
        $vis struct $name($int);

        impl $name {
            #[inline]
            pub const fn new(index: usize) -> Self {
                debug_assert!(index < <$int>::MAX as usize);
                Self(index as $int)
            }

            #[inline]
            pub const fn index(self) -> usize {
                self.0 as usize
            }
        }

        impl $crate::entity::EntityRef for $name {
            #[inline]
            fn new(index: usize) -> Self {
                Self::new(index)
            }

            #[inline]
            fn index(self) -> usize {
                self.0 as usize
            }
        }

        impl $crate::entity::ReservedValue for $name {
            #[inline]
            fn reserved_value() -> Self {
                Self(<$int>::MAX)
            }

            #[inline]
            fn is_reserved_value(&self) -> bool {
                self.0 == <$int>::MAX
            }
        }

        impl core::fmt::Display for $name {
            fn fmt(&self, f: &mut core::fmt::Formatter<'_>) -> core::fmt::Result {
                write!(f, concat!($($prefix,)? "{}"), self.0)
            }
        }

        impl core::fmt::Debug for $name {
            fn fmt(&self, f: &mut core::fmt::Formatter<'_>) -> core::fmt::Result {
                core::fmt::Display::fmt(self, f)
            }
        }

        entity_def! { $($rest)* }
    };
}

/// Prints nothing; tells the watch which line was reached, and what it says where that is wanted.
macro_rules! trace {
    ($text:literal $($args:tt)*) => {{
        const POINT: $crate::watch::Point = $crate::watch::point_of($text);
        if const { $crate::watch::is_read(POINT) } {
            $crate::watch::said(POINT, format_args!($text $($args)*));
        }
        $crate::watch::reached(POINT);
    }};
}

macro_rules! trace_enabled {
    () => {
        false
    };
}

/// Counts nothing; tells the watch which counter was meant.
macro_rules! stat {
    ($stats:expr, $name:ident $(, $count:expr)?) => {{
        let _ = &$stats;
        const POINT: $crate::watch::Point = $crate::watch::point_of(stringify!($name));
        $crate::watch::reached(POINT);
    }};
}
