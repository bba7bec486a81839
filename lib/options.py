"""The words of scripts."""
import argparse


def parser(text):
    """Returns a parser of words. Asked for help it prints this text as it is laid out."""
    how = {"formatter_class": argparse.RawDescriptionHelpFormatter}
    return argparse.ArgumentParser(description=text, **how)
