"""Rounds and offers from waiting lists, by two persons and a supervisor who draws the lots: what is
read before recording is paused (`before_pause`) and before a round is confirmed
(`before_confirmation`), the lots, the rehearsal and the outcome.
"""
