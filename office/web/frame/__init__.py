"""The frame of all screens: groups of screens, help, the journal, files that a browser sends, and
what other programs read and send. Who asks and whether they may is in web/people; the first screen
is in web/home.
"""
