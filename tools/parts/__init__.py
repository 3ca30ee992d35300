"""What the tools that compare the port with the Rust have in common."""
import sys
from pathlib import Path

ROOT = Path(__file__).resolve().parent.parent.parent


def give_up(why, status=2):
    print(f'{Path(sys.argv[0]).name}: {why}', file=sys.stderr)
    sys.exit(status)
