"""What a package declares: rustdoc's JSON of it, of its dependencies and of std."""
