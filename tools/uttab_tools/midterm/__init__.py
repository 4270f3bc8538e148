"""Changes in the middle of a term: the rest of a problem from a week on, and the whole term put together again."""
