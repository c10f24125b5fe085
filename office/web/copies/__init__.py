"""Copies of the register, and their restores."""
