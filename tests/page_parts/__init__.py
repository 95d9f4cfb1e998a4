"""What tests/page tries of the page, in a browser that is driven by its own protocol."""
