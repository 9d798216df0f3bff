"""What rustc says of the impls that are found: errors, lints, and what stays undecided."""
