"""A running gwb as a workbench whose commands are methods."""
