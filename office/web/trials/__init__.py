"""Trials of other admission numbers and criteria: registers that are deleted at the end
(`registers`), who would have gained or lost (`effects`), and each trial as a job (`runs`).
"""
