"""The screens of people and of signing in, each with its addresses."""
