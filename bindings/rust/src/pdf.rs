//! Kinds of packets.
use core::fmt;

/// One row a kind: its case, document 01's number, which is not the wire's, and what it is called.
macro_rules! kinds {
    ($($case:ident = $kind:literal, $name:literal;)*) => {
        /// The kind of a packet. Its number is document 01's, which is not the wire's.
        #[derive(Clone, Copy, Debug, PartialEq, Eq, Hash)]
        #[repr(u8)]
        pub enum Pdf {
            $(#[doc = concat!("Kind ", $kind, ": ", $name, ".")] $case = $kind,)*
        }

        impl Pdf {
            /// The kind of a number; above 12 it is unknown.
            pub fn from_kind(kind: u8) -> Self {
                match kind {
                    $($kind => Pdf::$case,)*
                    _ => Pdf::Unknown,
                }
            }

            /// Its number.
            pub fn kind(self) -> u8 {
                self as u8
            }
        }

        impl fmt::Display for Pdf {
            fn fmt(&self, f: &mut fmt::Formatter<'_>) -> fmt::Result {
                f.pad(match self {
                    $(Pdf::$case => $name,)*
                })
            }
        }
    };
}

kinds! {
    Unknown = 0, "unknown";
    ReadRequest = 1, "read request";
    ReadResponse = 2, "read response";
    WriteRequest = 3, "write request";
    WriteResponse = 4, "write response";
    Notification = 5, "error";
    NotificationAck = 6, "notification acknowledged";
    HotPlugEvent = 7, "hot plug event";
    XdomainRequest = 8, "inter-domain request";
    XdomainResponse = 9, "inter-domain response";
    IcmEvent = 10, "ICM event";
    IcmRequest = 11, "ICM command";
    IcmResponse = 12, "ICM response";
}
