"""The first screen: what is to be done, by when, and how the season stands (`tasks`); and those of
the supervisor, of the head of a school and of an administrator (`other_roles`).
"""
