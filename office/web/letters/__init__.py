"""Letters: what each says (`fields`, printed/letter.html), how it is laid out, whom they go to, the
office's templates (`versions`), addresses, sets that are made, and what was sent.
"""
