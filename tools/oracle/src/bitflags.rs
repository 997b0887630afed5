//! Stand-in for the crate `bitflags`: what class.rs uses of it.
#[macro_export]
macro_rules! bitflags {
    (
        $(#[$outer:meta])*
        $vis:vis struct $Name:ident: $T:ty {
            $( $(#[$inner:meta])* const $Flag:ident = $value:expr; )*
        }
    ) => {
        $(#[$outer])*
        $vis struct $Name($T);
        impl $Name {
            $( $(#[$inner])* pub const $Flag: Self = Self($value); )*
            pub const fn from_bits_retain(bits: $T) -> Self { Self(bits) }
            pub const fn bits(&self) -> $T { self.0 }
            pub const fn contains(&self, other: Self) -> bool { self.0 & other.0 == other.0 }
        }
    };
}
