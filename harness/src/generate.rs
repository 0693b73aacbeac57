//! Random input: right tables, states, moves and logs, and the same with one planted fault.

/// An enum of faults by 01's number, with the list of all, so that a test leaves none out.
macro_rules! faults {
    ($(#[$doc:meta])* $name:ident { $($number:literal: [$($fault:ident,)*])* }) => {
        $(#[$doc])*
        #[derive(Clone, Copy, Debug, PartialEq, Eq)]
        pub enum $name { $($($fault,)*)* }

        impl $name {
            pub const ALL: &[$name] = &[$($($name::$fault,)*)*];

            /// 01's number.
            pub fn number(self) -> u32 {
                match self {
                    $($($name::$fault)|* => $number,)*
                }
            }
        }
    };
}

pub mod aborting;
pub mod coverage;
pub mod lists;
pub mod logs;
pub mod moves;
pub mod plants;
pub mod previews;
pub mod state_faults;
pub mod states;
pub mod table_faults;
pub mod tables;
pub mod unattended;
pub mod workloads;
