"""The wrong answers beside the crates: see tools/wrong."""
