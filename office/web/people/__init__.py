"""People and programs that sign in: what each role may do (`roles`), who asks and whether they may
(`guard`), passwords, tokens and sessions (`people`), and what a change of a person does
(`changes`).
"""
