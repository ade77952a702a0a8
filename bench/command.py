"""The options that both commands have: the two programs, and the seed of the schedules."""

import argparse
import os

HERE = os.path.dirname(os.path.abspath(__file__))


def command(description):
    """A command with them. A program is named by its path, never looked up by name."""
    parser = argparse.ArgumentParser(description=description, formatter_class=argparse.RawDescriptionHelpFormatter)
    parser.add_argument("--bq", type=os.path.abspath, default=os.path.join(HERE, "../crates/bq/out/bq"))
    parser.add_argument("--twin", type=os.path.abspath, default=os.path.join(HERE, "twin/target/release/twin"))
    parser.add_argument("--seed", type=int, default=1)
    return parser
