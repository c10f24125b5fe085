"""The screens of a child, each with its addresses."""
