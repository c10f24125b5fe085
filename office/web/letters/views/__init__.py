"""The screens of letters, each with its addresses."""
