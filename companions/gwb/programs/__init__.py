"""The programs beside gwb: their command lines, and what they say."""
