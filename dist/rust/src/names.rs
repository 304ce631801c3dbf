//! Names of the protocol's numbers. Written by hand, and not proved.
use core::error::Error;
use core::fmt;
use core::str::FromStr;

/// A number, or a name, that version 4 of the protocol does not have.
#[derive(Clone, Copy, Debug, PartialEq, Eq, Hash)]
#[non_exhaustive]
pub enum UnknownName {
    /// What has no name with this number, and the number.
    Number(&'static str, u32),
    /// What has no number under the name that was given.
    Name(&'static str),
}

impl fmt::Display for UnknownName {
    fn fmt(&self, f: &mut fmt::Formatter<'_>) -> fmt::Result {
        match self {
            UnknownName::Number(what, number) => write!(f, "{number:#06x} is no {what} of version 4"),
            UnknownName::Name(what) => write!(f, "no {what} of version 4 has this name"),
        }
    }
}

impl Error for UnknownName {}

/// An enum of numbers with names: to and from the number, and to and from the name, in whatever case its letters are.
macro_rules! numbers {
    ($(#[$doc:meta])* $name:ident: $number:ty, $what:literal, { $($(#[$note:meta])* $variant:ident = $value:literal $text:literal,)* }) => {
        $(#[$doc])*
        #[derive(Clone, Copy, Debug, PartialEq, Eq, PartialOrd, Ord, Hash)]
        #[non_exhaustive]
        pub enum $name {
            $($(#[$note])* $variant,)*
        }

        impl $name {
            /// The name that the specification has for it.
            #[must_use]
            pub fn name(self) -> &'static str {
                match self {
                    $($name::$variant => $text,)*
                }
            }
        }

        impl From<$name> for $number {
            fn from(one: $name) -> $number {
                match one {
                    $($name::$variant => $value,)*
                }
            }
        }

        impl TryFrom<$number> for $name {
            type Error = UnknownName;

            fn try_from(number: $number) -> Result<Self, UnknownName> {
                match number {
                    $($value => Ok($name::$variant),)*
                    _ => Err(UnknownName::Number($what, u32::from(number))),
                }
            }
        }

        impl fmt::Display for $name {
            fn fmt(&self, f: &mut fmt::Formatter<'_>) -> fmt::Result {
                f.write_str(self.name())
            }
        }

        impl FromStr for $name {
            type Err = UnknownName;

            fn from_str(text: &str) -> Result<Self, UnknownName> {
                const ALL: &[$name] = &[$($name::$variant),*];
                ALL.iter().copied().find(|one| one.name().eq_ignore_ascii_case(text)).ok_or(UnknownName::Name($what))
            }
        }
    };
}

numbers! {
    /// How many replicas have to answer a request: a \[consistency\]. Section 3 of `native_protocol_v4.spec`.
    ///
    /// ```
    /// use cqlp::Consistency;
    ///
    /// let level: Consistency = "local_quorum".parse()?;
    /// assert_eq!(u16::from(level), 6);
    /// assert_eq!(Consistency::try_from(1)?.to_string(), "ONE");
    /// assert_eq!(Consistency::try_from(11).unwrap_err().to_string(), "0x000b is no consistency of version 4");
    /// # Ok::<(), cqlp::UnknownName>(())
    /// ```
    Consistency: u16, "consistency", {
        /// Any node, even one that only keeps the write for a replica.
        Any = 0x0000 "ANY",
        /// One replica.
        One = 0x0001 "ONE",
        /// Two replicas.
        Two = 0x0002 "TWO",
        /// Three replicas.
        Three = 0x0003 "THREE",
        /// More than half of all replicas.
        Quorum = 0x0004 "QUORUM",
        /// All replicas.
        All = 0x0005 "ALL",
        /// More than half of the replicas of the coordinator's data center.
        LocalQuorum = 0x0006 "LOCAL_QUORUM",
        /// More than half of the replicas of each data center.
        EachQuorum = 0x0007 "EACH_QUORUM",
        /// More than half of all replicas, in a lightweight transaction.
        Serial = 0x0008 "SERIAL",
        /// More than half of the replicas of the coordinator's data center, in a lightweight transaction.
        LocalSerial = 0x0009 "LOCAL_SERIAL",
        /// One replica of the coordinator's data center.
        LocalOne = 0x000A "LOCAL_ONE",
    }
}

numbers! {
    /// The code of an ERROR. Section 9 of `native_protocol_v4.spec`.
    ErrorCode: u32, "error code", {
        /// Something unexpected: a fault of the node.
        ServerError = 0x0000 "Server error",
        /// The request breaks the protocol.
        ProtocolError = 0x000A "Protocol error",
        /// The node did not take the credentials.
        BadCredentials = 0x0100 "Authentication error",
        /// Too few replicas are alive.
        Unavailable = 0x1000 "Unavailable exception",
        /// The coordinator has too much to do.
        Overloaded = 0x1001 "Overloaded",
        /// The coordinator is starting.
        IsBootstrapping = 0x1002 "Is_bootstrapping",
        /// A truncation failed.
        TruncateError = 0x1003 "Truncate_error",
        /// Too few replicas took a write in time.
        WriteTimeout = 0x1100 "Write_timeout",
        /// Too few replicas answered a read in time.
        ReadTimeout = 0x1200 "Read_timeout",
        /// Replicas failed in a read.
        ReadFailure = 0x1300 "Read_failure",
        /// A user-defined function failed.
        FunctionFailure = 0x1400 "Function_failure",
        /// Replicas failed in a write.
        WriteFailure = 0x1500 "Write_failure",
        /// The statement is no CQL.
        SyntaxError = 0x2000 "Syntax_error",
        /// The user may not do this.
        Unauthorized = 0x2100 "Unauthorized",
        /// The statement is CQL, and cannot be done.
        Invalid = 0x2200 "Invalid",
        /// The configuration does not allow it.
        ConfigError = 0x2300 "Config_error",
        /// The keyspace or table is there already.
        AlreadyExists = 0x2400 "Already_exists",
        /// The node does not know the prepared statement.
        Unprepared = 0x2500 "Unprepared",
    }
}

numbers! {
    /// The kind of a RESULT. Section 4.2.5 of `native_protocol_v4.spec`.
    ResultKind: u32, "kind of result", {
        /// Nothing beside the kind.
        Void = 1 "Void",
        /// Rows.
        Rows = 2 "Rows",
        /// The keyspace that the connection uses now.
        SetKeyspace = 3 "Set_keyspace",
        /// A prepared statement.
        Prepared = 4 "Prepared",
        /// A change of the schema.
        SchemaChange = 5 "Schema_change",
    }
}

/// The numbers as an \[int\] has them, which is what events and frames say.
macro_rules! as_ints {
    ($($name:ident)*) => {
        $(
            impl From<$name> for i32 {
                fn from(one: $name) -> i32 {
                    u32::from(one) as i32
                }
            }

            impl TryFrom<i32> for $name {
                type Error = UnknownName;

                fn try_from(number: i32) -> Result<Self, UnknownName> {
                    (number as u32).try_into()
                }
            }
        )*
    };
}

as_ints! { ErrorCode ResultKind }

/// Bits of the flags in a frame's header. Section 2.2 of `native_protocol_v4.spec`.
pub mod header_flag {
    /// The body is compressed. A decoder refuses it.
    pub const COMPRESSION: u8 = 0x01;
    /// A request asks for tracing; a response has a tracing id.
    pub const TRACING: u8 = 0x02;
    /// A custom payload comes first.
    pub const CUSTOM_PAYLOAD: u8 = 0x04;
    /// Warnings come first.
    pub const WARNING: u8 = 0x08;
}

/// Bits of the flags of a QUERY, an EXECUTE, and but for paging a BATCH. Section 4.1.4 of `native_protocol_v4.spec`.
pub mod query_flag {
    /// Values are bound.
    pub const VALUES: u8 = 0x01;
    /// The response is to have no metadata.
    pub const SKIP_METADATA: u8 = 0x02;
    /// A page's number of rows follows.
    pub const PAGE_SIZE: u8 = 0x04;
    /// A paging state follows.
    pub const WITH_PAGING_STATE: u8 = 0x08;
    /// A serial consistency follows.
    pub const WITH_SERIAL_CONSISTENCY: u8 = 0x10;
    /// A timestamp follows.
    pub const WITH_DEFAULT_TIMESTAMP: u8 = 0x20;
    /// The values have names.
    pub const WITH_NAMES_FOR_VALUES: u8 = 0x40;
}
