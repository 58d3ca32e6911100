"""Options of commands, as argparse reads them: what is said of a wrong one has no control characters of it."""
import argparse


class Parser(argparse.ArgumentParser):
    def error(self, message):
        super().error("".join(one if one.isprintable() else one.encode("unicode_escape").decode() for one in message))
