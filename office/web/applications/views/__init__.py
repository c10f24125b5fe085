"""The screens of applications, each with its addresses."""
