"""The tables of tests/speed: speed_tables.py FOLDER SEEDS RUNS (TITLE PROVED SECOND)..; PROVED stands before a program's name, and
HOST in the environment is the host in C."""
import os
import re
import resource
import statistics
import subprocess
import sys

# What is timed: its key, whether it is proved, the program or the mode of the second replay, its input, and the name of the line that it
# prints: those with one name must print the same.
TIMED = [
    ('call', True, 'app_rounds', 'log', 'forwards'),
    ('second call', False, 'rounds', 'log', 'forwards'),
    ('plain call', False, 'rounds plain', 'log', 'plain'),
    ('run', True, 'app_back_rounds', 'run', 'back'),
    ('single', True, 'app_back_rounds', 'single', 'back'),
    ('second undo', False, 'rounds undo', 'log', 'back'),
]
# The rows of a table: a name, and whose times stand in it.
ROWS = [
    ('a call forwards, both with its note', 'call', 'second call'),
    ('a call forwards, the second without notes', 'call', 'plain call'),
    ('an undo in a run', 'run', 'second undo'),
    ('a single public undo', 'single', 'second undo'),
]
KINDS = os.path.join(os.path.dirname(os.path.abspath(__file__)), '..', 'crates', 'code_calls', 'src', 'kinds.rt')


def timed(command, log):
    """The processor time of one run, and what it printed."""
    before = resource.getrusage(resource.RUSAGE_CHILDREN)
    with open(log, 'rb') as records:
        out = subprocess.run(command.split(), stdin=records, stdout=subprocess.PIPE, check=True).stdout
    after = resource.getrusage(resource.RUSAGE_CHILDREN)
    return after.ru_utime + after.ru_stime - before.ru_utime - before.ru_stime, out


def calls_or_undos(line):
    """How many calls or undos a program's line stands for: 'records R rounds N ..', and 'undone U' where it undid."""
    words = line.split()
    said = dict(zip(words[::2], map(int, words[1::2])))
    return said.get('undone', said['records'] * said['rounds'])


def once(proved, second, work, seed, times):
    """Every program once on one log; its time for a call or an undo joins its times."""
    lines = {}
    for key, is_proved, name, log, line in TIMED:
        took, out = timed(proved + name if is_proved else second + ' ' + name, '%s/%s%d' % (work, log, seed))
        out = out.decode()
        if lines.setdefault(line, out) != out:
            sys.exit('speed: %s differs: %s%s' % (key, lines[line], out))
        times[key].append(took / calls_or_undos(out) * 1e9)


def measured(proved, second, work, seeds, runs):
    """The times of each program, all run alternately."""
    times = {key: [] for key, _, _, _, _ in TIMED}
    for seed in range(1, seeds + 1):
        for _ in range(runs):
            once(proved, second, work, seed, times)
    return times


def print_times(title, times):
    median = {key: statistics.median(t) for key, t in times.items()}
    cell = {key: '%.0f (%.0f to %.0f)' % (median[key], min(t), max(t)) for key, t in times.items()}
    print('\n| %s: ns | proved | second | ratio |\n|---|---|---|---|' % title)
    for name, a, b in ROWS:
        print('| %s | %s | %s | %.1f |' % (name, cell[a], cell[b], median[a] / median[b]))
    to_call = median['second undo'] / median['second call']
    for name, a, _ in ROWS[2:]:
        print('| %s to a call | %.1f | %.1f | |' % (name, median[a] / median['call'], to_call))


def print_images(host, proved, work, seeds, runs):
    """A call on a stored image, by the host in C, beside one on a state, both with its note."""
    image, state = [], []
    for seed in range(1, seeds + 1):
        for _ in range(runs):
            for command, times in ((host + ' rounds 16', image), (proved + 'app_rounds', state)):
                took, out = timed(command, '%s/log%d' % (work, seed))
                times.append(took / calls_or_undos(out.decode()) * 1e9)
    print('\n| on the processor: ns | on an image | on a state | ratio |\n|---|---|---|---|')
    cells = ['%.0f (%.0f to %.0f)' % (statistics.median(t), min(t), max(t)) for t in (image, state)]
    print('| a call forwards with its note | %s | %s | %.1f |' % (*cells, statistics.median(image) / statistics.median(state)))


def note_lengths(log):
    """The kind and the length of each note: its first byte, and its last two."""
    end = len(log)
    while end > 0:
        length = int.from_bytes(log[end - 2:end], 'little')
        yield log[end - length], length
        end -= length


def kinds():
    """Each kind, and its number with its line of text, which stands behind its row in the table of kinds."""
    with open(KINDS, encoding='utf8') as table:
        return [(int(kind), kind + ' ' + line) for kind, line in re.findall(r'^ +row!\([^)]*\), // ([0-9]+): (.*)$', table.read(), re.M)]


def print_lengths(proved, work, seeds):
    lengths = {}
    for seed in range(1, seeds + 1):
        for kind, length in note_lengths(timed(proved + 'app_logged', '%s/log%d' % (work, seed))[1]):
            lengths.setdefault(kind, []).append(length)
    print('\n| bytes of a note | notes | mean | least | most |\n|---|---|---|---|---|')
    for name, of in [('all kinds', sum(lengths.values(), []))] + [(name, lengths.get(kind, [])) for kind, name in kinds()]:
        print('| %s | %d | %s |' % (name, len(of), '%.1f | %d | %d' % (sum(of) / len(of), min(of), max(of)) if of else '| |'))


work, seeds, runs, places = sys.argv[1], int(sys.argv[2]), int(sys.argv[3]), sys.argv[4:]
print('mixed logs of 4096 records: %d, %d runs each, alternately; processor time, medians and the least to the most' % (seeds, runs))
for i in range(0, len(places), 3):
    print_times(places[i], measured(places[i + 1], places[i + 2], work, seeds, runs))
print_images(os.environ['HOST'], places[1], work, seeds, runs)
print_lengths(places[1], work, seeds)
