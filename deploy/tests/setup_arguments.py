"""What admissions-admin setup is given by arguments, in tests."""
import argparse

from machine.verbs import setup


def given_to_setup(*words: str) -> argparse.Namespace:
    """What it is given by these, if it takes them."""
    reader = argparse.ArgumentParser()
    setup.arguments(reader)
    space = reader.parse_args(words)
    setup.checked(space)
    return space
