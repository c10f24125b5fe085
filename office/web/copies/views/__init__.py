"""The screens of copies and restores, each with its addresses."""
