"""The way to the register, its history, and what the application stores beside it."""
