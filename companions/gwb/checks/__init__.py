"""Slips that gwb accepts, found exactly."""
