"""The screens of schools, each with its addresses."""
