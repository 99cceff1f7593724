//! Faults that tests plant in the reference.

/// An enum of faults, with each of them once in `ALL`. What is named `beside` them
/// is a case of the enum, and not in `ALL`: no fault at all, or a list of its own.
#[macro_export]
macro_rules! faults {
    (
        $(#[$about:meta])*
        $visible:vis enum $name:ident $(beside $($other:ident $(($of:ty))?),+)? {
            $($fault:ident,)+
        }
    ) => {
        $(#[$about])*
        #[derive(Clone, Copy, Debug, PartialEq)]
        $visible enum $name {
            $($($other $(($of))?,)+)?
            $($fault,)+
        }

        impl $name {
            $visible const ALL: &[$name] = &[$($name::$fault),+];
        }
    };
}
