"""How much is tried: all of it by the whole gate, and less where that shows the same by `cfetbl test --quick`, which says so in the
environment."""
import os

IS_QUICK = os.environ.get("CFETBL_TEST") == "quick"


def amount(whole, quick):
    """How many are tried."""
    return quick if IS_QUICK else whole
