"""One child: what is recorded of it (`actions`), its data, its application, its notes, and all that
is held. The words of its buttons are in core/command_kinds; why it got its place is in web/explain.
"""
