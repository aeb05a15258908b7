"""What the tests of the built program print of faults."""

FAULTS_SHOWN = 100


def show(test, faults):
    """Prints a line for each of the first faults that a test found, and how many more there are."""
    for fault in faults[:FAULTS_SHOWN]:
        print(f"{test}: {fault}")
    if len(faults) > FAULTS_SHOWN:
        print(f"{test}: {len(faults) - FAULTS_SHOWN} more")
