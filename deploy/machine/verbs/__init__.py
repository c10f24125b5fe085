"""The verbs of admissions-admin, a module for each: its text is the help, `arguments` adds its
arguments, and `main` does its work."""
