"""`cargo coherence`: rustc's verdict on the impls of a Cargo package, and its reasons."""

VERSION = "0.1.0"
