"""Which of two impls specialises the other."""
