"""The office's application: sign-in, people, history, and the screens over a register that is
served.

It is the only way to the register. It sends commands one after another, each compared just before
with what the register says now, and keeps a record of each before it is sent. What the register
says is not stored here.

Each package is a feature, whose first lines say what is in it: modules that decide, `views` of its
screens, `templates` of these, and pages that are `printed`.
"""
