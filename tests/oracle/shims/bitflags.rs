//! Stands in for the crate `bitflags`: just the form that the Rust uses (a u32 with named bits, `contains`, `set`).

#[macro_export]
macro_rules! bitflags {
    ($(#[$outer:meta])* struct $name:ident: u32 { $(const $flag:ident = $bit:expr;)* }) => {
        $(#[$outer])*
        struct $name(u32);

        impl $name {
            $(const $flag: $name = $name($bit);)*

            #[inline]
            fn contains(&self, other: Self) -> bool {
                self.0 & other.0 == other.0
            }

            #[inline]
            fn set(&mut self, other: Self, on: bool) {
                if on { self.0 |= other.0 } else { self.0 &= !other.0 }
            }
        }
    };
}
