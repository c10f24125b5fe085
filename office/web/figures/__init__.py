"""The published figures of a round: what is counted (`counts`), what is withheld (`withheld`), the
page with its tables and charts (`page`, printed/figures.html), and what was published
(`publication`).
"""
