"""From rustdoc's JSON to a text for the program `assembly`."""
