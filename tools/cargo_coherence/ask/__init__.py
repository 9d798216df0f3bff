"""Questions to the program `assembly`, and its answers in Rust's terms."""
