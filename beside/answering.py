"""The two programs, and their answers to a list of cases."""
import pathlib
import subprocess
import tempfile

HERE = pathlib.Path(__file__).resolve().parent
ORIGINAL = HERE / 'original'
ORACLE = ORIGINAL / 'target' / 'release' / 'oracle'


def program(name):
    return HERE.parent / 'crates' / name / 'out' / name


def build(name):
    """Builds the original's functions and, where it is not built yet, our program of this name, if one is named."""
    subprocess.run(['cargo', 'build', '--release', '--quiet'], cwd=ORIGINAL, check=True)
    if name and not program(name).exists():
        subprocess.run(['rt', 'run'], cwd=program(name).parent.parent, check=True,
                       stdin=subprocess.DEVNULL, stdout=subprocess.DEVNULL)


def answers(command, path):
    with open(path, 'rb') as cases:
        return subprocess.run(command, stdin=cases, stdout=subprocess.PIPE, check=True).stdout


def answered(cases):
    """(case, theirs, ours) of each case, or no list at all where all answers are equal."""
    with tempfile.NamedTemporaryFile('w', suffix='.cases') as file:
        file.writelines(case + '\n' for case in cases)
        file.flush()
        theirs = answers([ORACLE, 'cases'], file.name)
        ours = answers([program('replay')], file.name)
    if theirs == ours:
        return None
    theirs, ours = theirs.decode().splitlines(), ours.decode().splitlines()
    if not len(cases) == len(theirs) == len(ours):
        raise SystemExit(f'{len(cases)} cases, {len(theirs)} and {len(ours)} answers')
    return list(zip(cases, theirs, ours))
