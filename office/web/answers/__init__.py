"""Answers of families, reminders and withdrawals: rows that are recorded one after another. The
days on which a reminder or a withdrawal is due are in `office/core/days`.
"""
