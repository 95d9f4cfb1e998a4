"""What runs a scope on many records: they are cut into parts, each part is computed by one call, and the parts are joined."""
