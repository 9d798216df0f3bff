//! What the tests assert by.

use kit::eprintln;
use kit::fmt::Debug;
use kit::prelude::*;

/// Two values have to be equal, in the place that the label names.
pub fn equals<T: PartialEq + Debug>(rt: &HostRuntime, got: &T, want: &T, label: &str) {
    assert_eq!(got, want, "{label}");
}

/// The condition has to hold.
pub fn holds(rt: &HostRuntime, condition: bool, label: &str) {
    assert!(condition, "{label}");
}

/// How many rows of a table of calls were answered otherwise than is wanted.
pub struct Failures {
    count: usize,
}

impl Failures {
    /// None failed.
    pub fn new() -> Self {
        Failures { count: 0 }
    }

    /// Counts the row of that label where its answer is another one than is wanted, and prints it then with both.
    pub fn compare<T: PartialEq + Debug>(
        &mut self,
        rt: &HostRuntime,
        got: &T,
        want: &T,
        label: &str,
    ) {
        if got != want {
            let _ = eprintln!(rt; "row:      {label}");
            let _ = eprintln!(rt; "answered: {got:?}");
            let _ = eprintln!(rt; "wanted:   {want:?}");
            self.count = self.count.saturating_add(1);
        }
    }

    /// Ends the test, which fails if rows failed.
    pub fn end(self, rt: &HostRuntime) {
        let failed = self.count;
        assert!(failed == 0, "{failed} rows failed");
    }
}
