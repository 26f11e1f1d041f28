"""The words that a tool is called with, and its help."""
import argparse
import pathlib


def reader(about):
    """What reads a tool's words. Its help begins with what the tool is about."""
    return argparse.ArgumentParser(description=about,
                                   formatter_class=argparse.RawDescriptionHelpFormatter)


def destination(about, name, default):
    """Where a tool writes: what its one word names, or a place of its own."""
    words = reader(about)
    words.add_argument('place', metavar=name, nargs='?', type=pathlib.Path, default=default,
                       help='where it is written (default: %(default)s)')
    return words.parse_args().place
