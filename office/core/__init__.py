"""What all of the office shares: the register as the program shows it (`model`), its rules, days
and words; and of each kind of command what it rests on and the words of its buttons
(`command_kinds`). What a role may do is in web/people/roles.
"""
