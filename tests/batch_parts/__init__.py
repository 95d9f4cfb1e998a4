"""What tests/batch tries."""
