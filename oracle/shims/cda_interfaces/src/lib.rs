// SPDX-License-Identifier: Apache-2.0
//! The types the original imports, reduced to what its text uses.

/// Tester present that a lock needs.
#[derive(Clone, Debug, PartialEq, Eq)]
pub enum TesterPresentType {
    Ecu(String),
    Functional(String),
}

pub mod lock_priority_api {
    use std::{borrow::Borrow, fmt, ops::Deref};

    use serde_json::{Map, Value};

    /// Lock id as text. The original looks it up by `&str` (`Borrow`), hands it on as `&str`
    /// (`Deref`), makes it from text (`From`) and prints it (`Display`).
    #[derive(Clone, Debug, PartialEq, Eq, PartialOrd, Ord, Hash)]
    pub struct LockId(String);

    impl LockId {
        pub fn as_str(&self) -> &str {
            &self.0
        }
    }

    impl Borrow<str> for LockId {
        fn borrow(&self) -> &str {
            &self.0
        }
    }

    impl Deref for LockId {
        type Target = str;

        fn deref(&self) -> &str {
            &self.0
        }
    }

    impl From<&str> for LockId {
        fn from(text: &str) -> Self {
            Self(text.to_owned())
        }
    }

    impl From<String> for LockId {
        fn from(text: String) -> Self {
            Self(text)
        }
    }

    impl fmt::Display for LockId {
        fn fmt(&self, f: &mut fmt::Formatter<'_>) -> fmt::Result {
            f.write_str(&self.0)
        }
    }

    /// Who holds a lock: the original reads the subject alone and keeps the rest as it is.
    #[derive(Clone, Debug, PartialEq)]
    pub struct LockPrincipal {
        pub subject: String,
        pub claims: Map<String, Value>,
    }

    /// What a lock is asked for, names not yet folded.
    #[derive(Clone, Debug, PartialEq, Eq)]
    pub enum LockScope {
        Vehicle,
        Ecu { name: String },
        FunctionalGroup { name: String },
    }
}
