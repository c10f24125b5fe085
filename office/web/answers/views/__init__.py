"""The screens of answers and reminders, each with its addresses."""
