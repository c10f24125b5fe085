"""Schools, what they have, how their waiting lists move, and the office's words for flags. The
picture of first preferences is in web/applications.
"""
