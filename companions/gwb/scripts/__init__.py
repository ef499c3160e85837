"""Scripts of operators that make a model, take it away or change it."""
