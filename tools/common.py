"""What the scripts share: the top of the repository, input files, built programs.

What is wrong with the input is said on standard error, with exit status 2.
"""
import json, os, subprocess, sys

HEX = ['message', 'image', 'verdict', 'reply', 'next', 'signer', 'new', 'anchor', 'type']  # fields that are octets in hex, where they are text
TOP = os.path.dirname(os.path.dirname(os.path.abspath(__file__)))


def path(*names):
    """a file of the repository, from whatever folder the script is run"""
    return os.path.join(TOP, *names)


def say(*words):
    print(os.path.basename(sys.argv[0]) + ':', *words, file=sys.stderr, flush=True)


def die(*words):
    say(*words)
    sys.exit(2)


def missing(error):
    """an import of python3-pyasn1-modules that failed"""
    die(f'{error}; install the Debian package python3-pyasn1-modules, which is for /usr/bin/python3')


def need(package, *commands):
    for command in commands:
        if not any(os.access(os.path.join(folder, command), os.X_OK) for folder in os.get_exec_path()):
            die(f'{command} is missing; install the Debian package {package}')


def program(name, given=None):
    """a built program: the one given, else that of its crate's out"""
    file = given or path('crates', name, 'out', name)
    if not os.access(file, os.X_OK) or os.path.isdir(file):
        die(f'{file}: no such program' + ('' if given else f'; `rt run < /dev/null` in crates/{name} makes it'))
    return os.path.abspath(file)


def json_lines(file, *kinds):
    """the objects of a file, one a line; each has the fields of one of the kinds"""
    try:
        lines = open(file).read().splitlines()
    except (OSError, UnicodeDecodeError) as error:
        die(error if isinstance(error, OSError) else f'{file}: {error}')
    found = []
    for n, line in enumerate(lines, 1):
        try:
            case = json.loads(line)
        except ValueError as error:
            die(f'{file}, line {n}: no JSON: {error}')
        if not isinstance(case, dict) or not any(all(field in case for field in kind.split()) for kind in kinds):
            die(f'{file}, line {n}: not an object with the fields', ' or '.join(kinds))
        for field in HEX:
            try:
                bytes.fromhex(case[field] if isinstance(case.get(field), str) else '')
            except ValueError:
                die(f'{file}, line {n}: {field} is not octets in hex')
        found.append(case)
    if not found:
        die(f'{file}: no line')
    return found


def run(program, octets):
    """what the program writes to standard output"""
    done = subprocess.run([program], input=octets, capture_output=True)
    if done.returncode:
        sys.stderr.buffer.write(done.stderr)
        say(f'{program} ended with status {done.returncode}')
        sys.exit(1)
    return done.stdout.decode()
