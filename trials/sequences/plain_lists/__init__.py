"""A plain slow sequence, written from what pmhost.h and docs/sequences.md say. It shares no code with the package."""
