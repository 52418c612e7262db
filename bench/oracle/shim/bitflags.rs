//! Stands for the crate `bitflags`: what program.rs and the builder use of it.
#[macro_export]
macro_rules! bitflags {
    ($(#[$m:meta])* $vis:vis struct $N:ident : $T:ty {
        $( $(#[$im:meta])* const $F:ident = $e:expr; )*
    }) => {
        $(#[$m])*
        $vis struct $N($T);
        impl $N {
            $( $(#[$im])* $vis const $F: Self = Self($e); )*
            $vis const fn bits(&self) -> $T { self.0 }
            $vis const fn empty() -> Self { Self(0) }
            $vis const fn contains(&self, o: Self) -> bool { self.0 & o.0 == o.0 }
            $vis const fn union(self, o: Self) -> Self { Self(self.0 | o.0) }
            $vis fn remove(&mut self, o: Self) { self.0 &= !o.0; }
            $vis fn insert(&mut self, o: Self) { self.0 |= o.0; }
        }
        impl ::core::ops::BitOrAssign for $N {
            fn bitor_assign(&mut self, o: Self) { self.0 |= o.0; }
        }
        impl ::core::ops::BitOr for $N {
            type Output = Self;
            fn bitor(self, o: Self) -> Self { Self(self.0 | o.0) }
        }
    };
}
