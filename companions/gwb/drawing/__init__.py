"""Pictures and pages of a model."""
