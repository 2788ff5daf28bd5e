// The id types that the original takes from another crate, which is not in the text given.

/// One 32-bit or machine-word number as a type of its own, so that ids cannot be passed for one another.
macro_rules! id {
    ($(#[$doc:meta])* $name:ident($number:ty)) => {
        $(#[$doc])*
        #[derive(Clone, Copy, Debug, PartialEq, Eq, PartialOrd, Ord)]
        pub struct $name($number);

        impl $name {
            pub const fn new(value: $number) -> Self {
                Self(value)
            }

            pub const fn value(self) -> $number {
                self.0
            }
        }
    };
}

id!(InterruptControllerId(u32));
id!(ItsId(u32));
id!(MsiDeviceId(u32));
id!(MsiEventId(u32));
id!(LpiId(u32));
id!(
    /// An input's number. 01 says 64 bits, the original a machine word.
    ControllerInputId(usize)
);
id!(
    /// A host IRQ's number. 01 says 64 bits, the original a machine word.
    HostIrqId(usize)
);

const _: () = assert!(usize::BITS == 64, "the original's machine word must be 01's 64 bits");

/// How an input fires: one of four, known here by 01's code alone.
#[derive(Clone, Copy, Debug, PartialEq, Eq)]
pub struct InterruptTrigger(u32);

impl InterruptTrigger {
    /// The trigger of a code 0 to 3. There is no other value of this type.
    pub const fn from_code(code: u32) -> Option<Self> {
        if code < 4 {
            Some(Self(code))
        } else {
            None
        }
    }

    pub const fn code(self) -> u32 {
        self.0
    }
}

/// Whether an input may have several owners.
#[derive(Clone, Copy, Debug, PartialEq, Eq)]
pub enum InterruptSharing {
    Exclusive,
    Shared,
}

impl InterruptSharing {
    /// 0 is Exclusive, 1 Shared.
    pub const fn from_code(code: u32) -> Option<Self> {
        match code {
            0 => Some(Self::Exclusive),
            1 => Some(Self::Shared),
            _ => None,
        }
    }

    pub const fn code(self) -> u32 {
        match self {
            Self::Exclusive => 0,
            Self::Shared => 1,
        }
    }
}
