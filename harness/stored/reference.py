"""The reference: its programs, and what they answer."""
import functools, os, struct, subprocess

HARNESS = os.path.dirname(os.path.dirname(os.path.abspath(__file__)))
LEVEL = '7'  # of the reference: the changes of document 02 that the library has


def reference(program, *words, **given):
    return subprocess.run([os.path.join(HARNESS, 'target/release', program), *words], check=True, stdout=subprocess.PIPE, **given).stdout.decode()


def words_of(content):
    """The whole words of some bytes."""
    return list(struct.unpack('<%dI' % (len(content) // 4), content[:len(content) // 4 * 4]))


def bytes_of(words):
    return struct.pack('<%dI' % len(words), *words)


@functools.lru_cache(maxsize=64)
def oracle(content, *words):
    """What the reference prints of the bytes of a board."""
    return reference('oracle', '--level', LEVEL, *words, input=content)


def ask(board, *words):
    """The lines that the reference prints of a board."""
    return oracle(bytes_of(board), *words).splitlines()


def passes(board): return int(ask(board)[0].split()[2])
def last_time(board): return int(ask(board)[-1].split()[2])
