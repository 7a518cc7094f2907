"""The files of call_cases, times_cases and makeup."""
import os, shutil

from stored.reference import HARNESS, oracle

CRATES = os.path.join(HARNESS, '..', 'crates')
EXAMPLES = os.path.join(HARNESS, '..', 'examples')
BLOCK = 65536  # bytes that call_cases reads at a time


def text(words):
    """The words, with x*n for eight and more equal ones."""
    runs = []
    for x in words:
        if runs and runs[-1][0] == x: runs[-1][1] += 1
        else: runs.append([x, 1])
    return ' '.join('%d*%d' % (x, n) if n > 7 else ' '.join([str(x)] * n) for x, n in runs)


def distinct(boards):
    return list({text(words): words for words in boards}.values())


def in_blocks(groups):
    """The groups of lines, with lines of dots so that none goes over a block's end."""
    out = ''
    for group in groups:
        assert len(group) <= BLOCK, group[:80]
        left = BLOCK - len(out) % BLOCK
        out += ('.' * (left - 1) + '\n' if left < len(group) else '') + group
    return out


def write(path, content):
    with open(path, 'wb') as out:
        out.write(content)


def call_cases(cases):
    folder = os.path.join(CRATES, 'call_cases')
    groups = [''.join(line + '\n' for line in ['board ' + text(words)] + [call for call, _ in calls]) for words, calls in cases]
    write(os.path.join(folder, 'stdin'), in_blocks(groups).encode())
    write(os.path.join(folder, 'stdout'), ''.join(line + '\n' for _, calls in cases for _, lines in calls for line in lines).encode())
    numbers = [call.split()[0] for _, calls in cases for call, _ in calls]
    print('call_cases:', len(cases), 'boards;', ', '.join('call %s: %d' % (k, numbers.count(k)) for k in sorted(set(numbers), key=int)))


def times_cases(files):
    folder = os.path.join(CRATES, 'times_cases')
    data = os.path.join(folder, 'data')
    shutil.rmtree(data, ignore_errors=True)
    os.makedirs(data)
    for name, content in files.items():
        write(os.path.join(data, name), content)
    # a folder can be opened, and its first read fails: the end of the input
    pages = ['%s: %s' % (name, oracle(content)) for name, content in files.items()] + ['.: bad 1 0\n']
    write(os.path.join(folder, 'args'), ''.join(name + '\n' for name in [*files, '.']).encode())
    write(os.path.join(folder, 'stdout'), ''.join(pages).encode())
    print('times_cases:', len(files), 'files')


def makeup_example():
    """The program `makeup` on the late board of the examples, with the task that is late."""
    with open(os.path.join(EXAMPLES, 'late.board'), 'rb') as file:
        content = file.read()
    late = oracle(content).split()[1]
    page = oracle(content, 'makeup', late).encode()
    folder = os.path.join(CRATES, 'makeup')
    os.makedirs(folder, exist_ok=True)
    for name, made in (('stdin', content), ('args', late.encode() + b'\n'), ('stdout', page)):
        write(os.path.join(folder, name), made)
    write(os.path.join(EXAMPLES, 'late.makeup'), page)
