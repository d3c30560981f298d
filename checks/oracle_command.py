"""checks/oracle_command.py: what a file of oracle_commands/ says of a command.

Each of these files has one command, or a small family, whole. The oracle finds all of them: oracle_registry.py. A file has
  COMMANDS  its commands: each name, in capitals, with its Command
  TEXTS     the texts of numerics, but for those of oracle_words.py, which several commands have; it may be left out
  ROWS      runs that were worked out by hand, as oracle_rows.py reads them
"""
import dataclasses
from collections.abc import Callable


@dataclasses.dataclass(frozen=True)
class Command:
    # does(effects, params) adds its facts and its lines, where its shape isn't refused.
    does: Callable
    # draws(script) gives its parameters in a script, by chance.
    draws: Callable
    # With fewer parameters it is 461.
    least: int = 0
    # refuses(effects, params) tells why its shape is refused, whoever says it, and answers whether it is.
    refuses: Callable = lambda effects, params: False
    # Whether a session that isn't registered may say it.
    is_early: bool = False
    # Whether no numeric answers it.
    is_quiet: bool = False
    # Its share of what scripts say, where many commands have 10; its share of what operators say besides.
    share: int = 10
    by_operators: int = 0
