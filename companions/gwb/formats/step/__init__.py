"""STEP with flat boundary representations: `lexer` finds the entities of a file, `read` makes parts of them, `write` writes a model."""
