"""Why a child got what a draw gave it, in sentences (`why`) and in a few words (`reasons`), and
what else would have come of it (`what_if`). Figures of a round are in web/figures, trials of other
admission numbers in web/trials.
"""
