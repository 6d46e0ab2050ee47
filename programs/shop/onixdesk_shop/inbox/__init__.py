"""The inbox of one wholesaler: what came, what became of it, and what the desk has of it."""
