//! The macro that `io_buffers.rs` takes from imago's `macros.rs`.

/// A function of a trait that calls the inherent function of the same name.
macro_rules! passthrough_trait_fn {
    (fn $name:ident(self $(, $arg:ident: $ty:ty)*) $(-> $ret:ty)?;) => {
        fn $name(self $(, $arg: $ty)*) $(-> $ret)? {
            Self::$name(self $(, $arg)*)
        }
    };
    (fn $name:ident(&self $(, $arg:ident: $ty:ty)*) $(-> $ret:ty)?;) => {
        fn $name(&self $(, $arg: $ty)*) $(-> $ret)? {
            Self::$name(self $(, $arg)*)
        }
    };
    (fn $name:ident(&mut self $(, $arg:ident: $ty:ty)*) $(-> $ret:ty)?;) => {
        fn $name(&mut self $(, $arg: $ty)*) $(-> $ret)? {
            Self::$name(self $(, $arg)*)
        }
    };
    (fn $name:ident($($arg:ident: $ty:ty),*) $(-> $ret:ty)?;) => {
        fn $name($($arg: $ty),*) $(-> $ret)? {
            Self::$name($($arg),*)
        }
    };
}

pub(crate) use passthrough_trait_fn;
