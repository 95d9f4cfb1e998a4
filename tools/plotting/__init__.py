"""What draws pictures of a scope: runs along an axis, where another definition decides, and where there is no value."""
