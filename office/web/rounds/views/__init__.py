"""The screens of rounds and of lots, each with its addresses."""
