//! Notification events.
use crate::raw;
use core::fmt;

/// One row an event: its case and its code.
macro_rules! events {
    ($($case:ident = $code:literal;)*) => {
        /// The event that a notification's code stands for.
        #[derive(Clone, Copy, Debug, PartialEq, Eq, Hash)]
        pub enum Event {
            $(#[doc = concat!("Code ", $code, ".")] $case,)*
            /// A code that stands for none of them.
            Unknown(u8),
        }

        impl From<u8> for Event {
            fn from(code: u8) -> Self {
                match code {
                    $($code => Event::$case,)*
                    code => Event::Unknown(code),
                }
            }
        }

        impl Event {
            /// Its code; no two events that are made from codes have the same.
            pub fn code(self) -> u8 {
                match self {
                    $(Event::$case => $code,)*
                    Event::Unknown(code) => code,
                }
            }
        }
    };
}

events! {
    ErrConn = 0;
    ErrLink = 1;
    ErrAddr = 2;
    ErrAdp = 4;
    HpAck = 7;
    ErrEnum = 8;
    ErrNua = 9;
    ErrLen = 11;
    ErrHec = 12;
    ErrFc = 13;
    ErrPlug = 14;
    ErrLock = 15;
    DpBw = 32;
    RopCmplt = 33;
    PopCmplt = 34;
    PcieWake = 35;
    DpConChange = 36;
    DptxDiscovery = 37;
    LinkRecovery = 38;
    AsymLink = 39;
}

/// Prints the event's name as the proved call gives it, and an unknown code in decimal. No two codes print the same, so a name tells its code; where
/// tbtools prints `DP_CON_CHANGE` for 38 as well as for 36, 38 is `LINK_RECOVERY` here.
impl fmt::Display for Event {
    fn fmt(&self, f: &mut fmt::Formatter<'_>) -> fmt::Result {
        let name = raw::event_name(self.code());
        let bytes = name.bytes.get(..name.len).unwrap_or_default();
        f.pad(core::str::from_utf8(bytes).unwrap_or_default())
    }
}
