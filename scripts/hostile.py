"""Tries a program against truncated, malicious and failing input, and prints one line for each kind.

    python3 scripts/hostile.py PROGRAM FOLDER [KIND..]

scripts/hostile calls it. FOLDER has failing_allocation.so, failing_call.so and colliding_numbers, and takes inputs and texts.
A KIND is the name of a function below that is marked as one; without any, all are tried.

What a run may take, beside what it must answer:
    time      0.5 s, and 300 ns for each byte of the input and of the page (user and system time of the process)
    memory    16 MiB, 12 bytes for each byte of the input, and 3 for each byte of the page and of the report (resident)
Some kinds take more than in proportion to the input. They have bounds of their own, and their lines say what grows.
No run may end by a signal.
"""
import os
import re
import subprocess
import sys

LIMIT = 300  # seconds after which a run is stopped
here = os.path.dirname(os.path.abspath(__file__))
examples = os.path.join(here, '..', 'examples')
wall = open(os.path.join(examples, 'wall.ifc'), 'rb').read()
window = open(os.path.join(examples, 'window.ifc'), 'rb').read()
end = wall.rindex(b'ENDSEC;')
head, tail = wall[:wall.index(b'#9=')], wall[wall.index(b'#11='):]
kinds = {}


def kind(function):
    kinds[function.__name__] = function
    return function


class Wrong(Exception):
    """What went wrong in a run."""


class Ended:
    """How a run ended: its status, the page on its output and its report; the size of its input, its time and its memory."""

    def __init__(self, status, page, report, size, seconds, mebibytes):
        self.status, self.page, self.report = status, page, report
        self.size, self.seconds, self.mebibytes = size, seconds, mebibytes

    def must(self, holds, what):
        if not holds:
            raise Wrong('%s: status %d, a page of %d bytes, report %s' % (what, self.status, len(self.page), self.report[:60]))

    def is_like(self, other):
        return (self.status, self.page, self.report) == (other.status, other.page, other.report)

    def is_nothing_with(self, status, report):
        return self.status == status and self.page == b'' and self.report == report


class Trial:
    """The runs of one kind, and the longest time and the most memory of them."""

    def __init__(self, seconds=None, each=12, room=16):
        """Bounds of its own for the time, for the bytes of memory for each byte of input, and for the MiB of memory beside."""
        self.bound, self.each, self.room = seconds, each, room
        self.count = self.seconds = self.mebibytes = 0

    def run(self, words, given, out=None, source=None, **variables):
        """Runs the program with these words over these bytes. `out` and `source` stand for its output and its input."""
        name, page, report, taken = (os.path.join(folder, part) for part in ('input', 'page', 'report', 'taken'))
        if given is not None:
            with open(name, 'wb') as file:
                file.write(given)
        size = os.path.getsize(name) if source is None else 0
        command = ['/usr/bin/time', '-q', '-o', taken, '-f', '%U %S %M', 'timeout', '-s', 'KILL', str(LIMIT), 'env']
        command += ['%s=%s' % pair for pair in variables.items()] + [program] + words.split()
        with open(name, 'rb') as file, open(page, 'wb') as printed, open(report, 'wb') as told:
            status = subprocess.run(command, stdin=file if source is None else source, stdout=printed if out is None else out,
                                    stderr=told).returncode
        user, system, kibibytes = open(taken).read().split()[-3:]
        ended = Ended(status, open(page, 'rb').read(), open(report, 'rb').read(), size, float(user) + float(system),
                      int(kibibytes) / 1024)
        self.count += 1
        self.seconds, self.mebibytes = max(self.seconds, ended.seconds), max(self.mebibytes, ended.mebibytes)
        ended.must(0 <= status < 124, 'an end by a signal, or none after %d s' % LIMIT)
        seconds = 0.5 + 300e-9 * (size + len(ended.page)) if self.bound is None else self.bound
        mebibytes = self.room + (self.each * size + 3 * (len(ended.page) + len(ended.report))) / 2 ** 20
        if ended.seconds > seconds or ended.mebibytes > mebibytes:
            raise Wrong('%.2f s and %.1f MiB, past %.2f s and %.1f MiB' % (ended.seconds, ended.mebibytes, seconds, mebibytes))
        return ended


def with_lines(lines):
    """The file of a wall with more instances behind its own."""
    return wall[:end] + lines.encode() + wall[end:]


def with_items(items, lines):
    """The file of a wall with other items, and more instances."""
    return head + lines.encode() + tail.replace(b'(#10)', b'(%s)' % items.encode())


def place_of_cut(text, cut):
    """Where a file that is cut there is refused: at a token that is left unfinished, if what is left of it is no token that
    may stand there, else at the cut. A keyword may be left shorter but for the words that stand for themselves, and a number
    but for an exponent: `1.` and `E` are what is left of `1.E-5`."""
    words = rb"/\*.*?\*/|'[^']*'|\.[A-Z_]+\.|(?:END-)?ISO-10303-21|[A-Z_][A-Z0-9_]*|#?-?[0-9.]+(?:E-?[0-9]+)?|[;=(),$*]"
    for token in re.finditer(words, text, re.DOTALL):
        if token.start() < cut < token.end():
            whole, left = token.group(), text[token.start():cut]
            if re.fullmatch(rb'[0-9]+\.[0-9]*E-?', left):
                return token.start() + left.index(b'E')
            shorter = whole[:1].isdigit() or re.fullmatch(rb'#[0-9]+', left)
            named = whole[:1].isalpha() and b'-' not in whole and whole not in (b'HEADER', b'DATA')
            ends = whole == b'ENDSEC' and b'DATA;' in text[:token.start()]
            return cut if shorter or named and not ends else token.start()
    return cut


def cut_at_each_byte(text):
    trial = Trial()
    whole = trial.run('convert', text)
    for cut in range(len(text)):
        ended = trial.run('convert', text[:cut])
        if cut > text.rindex(b';'):
            ended.must(ended.is_like(whole), 'cut at %d' % cut)
        else:
            report = b'refused Syntax at %d\n' % place_of_cut(text, cut)
            ended.must(ended.is_nothing_with(2, report), 'cut at %d, and not %s' % (cut, report))
    return trial


@kind
def wall_cut_at_each_byte():
    return cut_at_each_byte(wall), ''


@kind
def window_cut_at_each_byte():
    return cut_at_each_byte(window), ''


def counts(trial, shim, words, given, **variables):
    """The run with a shim that counts only, and its counts."""
    name = os.path.join(folder, 'counts')
    ended = trial.run(words, given, COUNT_IN=name, LD_PRELOAD=os.path.join(folder, shim), **variables)
    return ended, [int(count) for count in open(name).read().split()]


def failing_allocations(words, given):
    trial = Trial()
    whole = trial.run(words, given)
    counted, (total,) = counts(trial, 'failing_allocation.so', words, given)
    counted.must(counted.is_like(whole) and total > 0, 'a run that counts %d allocations' % total)
    for number in range(1, total + 1):
        ended = trial.run(words, given, LD_PRELOAD=os.path.join(folder, 'failing_allocation.so'), FAIL_AT=number)
        wants = ended.status == 5 and ended.page == b'' and ended.report in (b'', b'want of memory\n')
        ended.must(wants or ended.is_like(whole), 'allocation %d of %d' % (number, total))
    return trial, ''


@kind
def allocations_of_wall():
    return failing_allocations('convert', wall)


@kind
def allocations_of_window():
    return failing_allocations('convert', window)


@kind
def allocations_of_off():
    return failing_allocations('convert --format=off', window)


@kind
def allocations_of_check():
    return failing_allocations('check', Trial().run('convert', wall).page)


@kind
def allocations_of_gen():
    return failing_allocations('gen --count=2', b'')


@kind
def allocations_of_gen_run():
    return failing_allocations('gen --count=1 --run', b'')


def failing_calls(most):
    """Each read, write and report of a window failing in turn, and then short."""
    trial = Trial()
    most = {'MOST': most} if most else {}
    whole = trial.run('convert', window)
    counted, totals = counts(trial, 'failing_call.so', 'convert', window, **most)
    counted.must(counted.is_like(whole) and min(totals) > 0, 'a run that counts %s calls' % totals)
    for end, total in zip(('read', 'write', 'report'), totals):
        for number in range(1, total + 1):
            call = '%s %d' % (end, number)
            ended = trial.run('convert', window, LD_PRELOAD=os.path.join(folder, 'failing_call.so'), FAIL_AT=call, **most)
            if end == 'read':
                right = ended.is_nothing_with(3, b'read fault\n')
            elif end == 'write':
                right = ended.status == 4 and whole.page.startswith(ended.page) and ended.page != whole.page and ended.report == b''
            else:
                right = ended.status == 4 and ended.page == whole.page and whole.report.startswith(ended.report)
            ended.must(right, 'failing %s' % call)
            ended = trial.run('convert', window, LD_PRELOAD=os.path.join(folder, 'failing_call.so'), SHORT_AT=call, **most)
            ended.must(ended.is_like(whole), 'short %s' % call)
    return trial, '%d reads, %d writes, %d reports' % tuple(totals)


@kind
def failing_calls_of_window():
    return failing_calls(None)


@kind
def failing_calls_of_64_bytes():
    return failing_calls(64)


@kind
def broken_ends():
    """An output that is full, one that nobody reads, and one that is not open; an input that is a folder."""
    trial = Trial()
    with open('/dev/full', 'wb') as full:
        ended = trial.run('convert', window, out=full)
        ended.must(ended.is_nothing_with(4, b''), 'a full output')
    reader, writer = os.pipe()
    os.close(reader)
    ended = trial.run('convert', window, out=writer)
    os.close(writer)
    ended.must(ended.is_nothing_with(4, b''), 'an output that nobody reads')
    with open('/dev/null', 'rb') as unwritable:
        ended = trial.run('convert', window, out=unwritable)
        ended.must(ended.is_nothing_with(4, b''), 'an output that is not open for writing')
    place = os.open(folder, os.O_RDONLY)
    ended = trial.run('convert', None, source=place)
    os.close(place)
    ended.must(ended.is_nothing_with(3, b'read fault\n'), 'an input that is a folder')
    return trial, ''


@kind
def size_at_its_limit():
    """2^27 bytes, by blanks, and one byte more."""
    trial = Trial()
    whole = trial.run('convert', wall)
    blanks = 2 ** 27 - len(wall)
    ended = trial.run('convert', wall[:end] + b' ' * blanks + wall[end:])
    ended.must(ended.is_like(whole), '2^27 bytes')
    ended = trial.run('convert', wall[:end] + b' ' * (blanks + 1) + wall[end:])
    ended.must(ended.is_nothing_with(2, b'refused FileTooLarge\n'), '2^27 bytes and one')
    return trial, ''


@kind
def parentheses_at_their_limit():
    trial = Trial()
    whole = trial.run('convert', wall)
    for count in (32, 33, 2 ** 24):
        text = with_lines('#14=A' + '(' * count + '$' + ')' * count + ';\n')
        ended = trial.run('convert', text)
        report = b'refused Nested at %d\n' % (text.index(b'#14=A') + len('#14=A') + 32)
        right = ended.is_like(whole) if count == 32 else ended.is_nothing_with(2, report)
        ended.must(right, '%d parentheses' % count)
    return trial, ''


def page_of(line):
    return b'# ifcexact 1\n# grid 1000\n' + line + b'# end\n'


block = '#100=IFCBLOCK(#4,1000.,1000.,1000.);\n'
half_space = '#101=IFCPLANE(#4);\n#100=IFCHALFSPACESOLID(#101,.F.);\n'


def slabs(count):
    """A block less so many half-spaces, two by two the slabs from x = 1 to 2, from 3 to 4 and so on."""
    lines = '#14=IFCBLOCK(#4,10000.,1000.,1000.);\n#15=IFCDIRECTION((1.,0.,0.));\n'
    for i in range(count):
        n = 1000 + 10 * i
        lines += ('#%d=IFCCARTESIANPOINT((%d.,0.,0.));\n#%d=IFCAXIS2PLACEMENT3D(#%d,#15,$);\n#%d=IFCPLANE(#%d);\n'
                  '#%d=IFCHALFSPACESOLID(#%d,%s);\n' % (n, i + 1, n + 1, n, n + 2, n + 1, n + 3, n + 2, '.T.' if i % 2 else '.F.'))
        if i % 2:
            lines += '#%d=IFCBOOLEANRESULT(.INTERSECTION.,#%d,#%d);\n' % (n + 4, n - 7, n + 3)
    named = ','.join('#%d' % (1014 + 20 * i) for i in range(count // 2))
    lines += ("#25=IFCSHAPEREPRESENTATION(#5,'Body','',(%s));\n#26=IFCPRODUCTDEFINITIONSHAPE($,$,(#25));\n"
              "#27=IFCOPENINGELEMENT('3',$,$,$,$,#7,#26,$,$);\n#28=IFCRELVOIDSELEMENT('4',$,$,$,#13,#27);\n" % named)
    return with_items('#14', lines)


@kind
def tree_of_4072_half_spaces():
    """A block and as many half-spaces as an element may have with it. The slabs lie one behind the other, so that the tree is as
    high as there are half-spaces, on the usual stack."""
    trial = Trial(120, room=64)
    ended = trial.run('convert', slabs(4096 - 24))
    width = 10000 - (4096 - 24) // 2
    ended.must(ended.status == 0 and ended.page.endswith(b'\n#vol6 %d\n# end\n' % (6 * width * 10 ** 15)), '2,036 slabs')
    return trial, 'the time grows with the square of the half-spaces, and the memory with the planes and faces of the element'


def doubled(depth, leaf):
    """A solid so deep in which each has the one below it twice."""
    lines = leaf + '#200=IFCBOOLEANRESULT(.UNION.,#100,#100);\n'
    for number in range(201, 199 + depth):
        lines += '#%d=IFCBOOLEANRESULT(.UNION.,#%d,#%d);\n' % (number, number - 1, number - 1)
    return with_items('#%d' % (198 + depth), lines)


@kind
def solids_named_twice_64_deep():
    trial = Trial()
    for depth, leaf, line in ((64, block, b'E9 ElementTooLarge 4104'), (64, half_space, b'E9 ElementTooLarge 4097'),
                              (65, block, b'E8 TooDeep #100')):
        ended = trial.run('convert', doubled(depth, leaf))
        line = b'#refused 13 ' + line + b'\n'
        ended.must(ended.status == 1 and ended.page == page_of(line), '%d deep, and not %s' % (depth, line))
    return trial, ''


def elements(count, placement, shape):
    return ''.join("#%d=IFCWALL('',$,$,$,$,#%d,%s,$,$);\n" % (1000 + i, placement, shape) for i in range(count))


def chain(links):
    lines = '#100=IFCLOCALPLACEMENT($,#4);\n'
    return lines + ''.join('#%d=IFCLOCALPLACEMENT(#%d,#4);\n' % (n, n - 1) for n in range(101, 100 + links))


@kind
def chains_of_64_and_65_placements():
    """100,000 elements at the end of a chain. Where it is not too long their item is refused, so that the chain alone counts."""
    trial = Trial(60)
    shape = "#14=IFCPRODUCTDEFINITIONSHAPE($,$,(#15));\n#15=IFCSHAPEREPRESENTATION(#5,'Body','',(#9));\n"
    for links, line in ((64, b' E1 Unsupported #9\n'), (65, b' E8 TooDeep #100\n')):
        ended = trial.run('convert', with_lines(shape + chain(links) + elements(100000, 99 + links, '#14')))
        ended.must(ended.status == 1 and ended.page.count(line) == 100000, '%d placements' % links)
    return trial, 'the chain is read for each element'


def openings(count, shape):
    return ''.join("#%d=IFCOPENINGELEMENT('',$,$,$,$,#7,%s,$,$);\n#%d=IFCRELVOIDSELEMENT('',$,$,$,#13,#%d);\n"
                   % (1000 + 2 * i, shape, 1001 + 2 * i, 1000 + 2 * i) for i in range(count))


@kind
def openings_of_one_element():
    """100,000 openings: with a body the count of triangles is passed, and without one they add nothing."""
    trial = Trial()
    whole = trial.run('convert', wall)
    ended = trial.run('convert', with_lines(openings(100000, '#12')))
    ended.must(ended.status == 1 and ended.page == page_of(b'#refused 13 E9 ElementTooLarge 4104\n'), 'with a body')
    ended = trial.run('convert', with_lines(openings(100000, '$')))
    ended.must(ended.is_like(whole), 'without a body')
    return trial, ''


@kind
def elements_of_one_representation():
    trial = Trial()
    ended = trial.run('convert', with_lines(elements(100000, 7, '#12')))
    report = b'elements 100001 converted 100001 skipped 0 refused 0 corners 800008 faces 800008\n'
    ended.must(ended.status == 0 and ended.report == report, '100,000 elements')
    return trial, 'a page of %d bytes for each element' % (len(ended.page) // 100001)


@kind
def instances_that_nothing_names():
    trial = Trial()
    whole = trial.run('convert', wall)
    text = with_lines(''.join('#%d=IFCCARTESIANPOINT((%d.5,%d.25,%d.125));\n' % (n, n, 2 * n, 3 * n)
                              for n in range(1000, 1001000)))
    ended = trial.run('convert', text)
    ended.must(ended.is_like(whole), '1,000,000 points')
    return trial, '%.1f bytes for each byte of input' % (2 ** 20 * ended.mebibytes / len(text))


@kind
def instances_without_parameters():
    trial = Trial(each=12)
    whole = trial.run('convert', wall)
    text = with_lines(''.join('#%d=A();' % n for n in range(1000, 1001000)))
    ended = trial.run('convert', text)
    ended.must(ended.is_like(whole), '1,000,000 instances')
    return trial, '%.1f bytes for each byte of input' % (2 ** 20 * ended.mebibytes / len(text))


@kind
def instances_whose_numbers_collide():
    """200,000 instances whose numbers have hashes with the same last bits: a table that hashes numbers with a fixed seed would
    begin with all of them at one place."""
    trial = Trial()
    whole = trial.run('convert', wall)
    made = subprocess.run([os.path.join(folder, 'colliding_numbers'), '200000', '13'], stdout=subprocess.PIPE, check=True).stdout
    ended = trial.run('convert', with_lines(made.decode()))
    ended.must(ended.is_like(whole), '200,000 instances')
    return trial, ''


@kind
def list_of_unset_parameters():
    trial = Trial(each=20)
    whole = trial.run('convert', wall)
    text = with_lines('#14=A(%s$);\n' % ('$,' * 2 ** 23))
    ended = trial.run('convert', text)
    ended.must(ended.is_like(whole), '2^23 parameters')
    return trial, '%.1f bytes for each byte of input, as a parameter is longer than its text' % (2 ** 20 * ended.mebibytes / len(text))


@kind
def long_curves():
    """Curves of 1,000,000 references to one point, and a profile with as many references to one void."""
    trial = Trial(each=32)
    many = ','.join(['#3'] * 1000000)
    profile = '#50=IFCEXTRUDEDAREASOLID(#51,$,#8,1000.);\n#51=IFCARBITRARYCLOSEDPROFILEDEF(.AREA.,$,#52);\n'
    ended = trial.run('convert', with_items('#50', profile + '#52=IFCPOLYLINE((%s));\n' % many))
    ended.must(ended.page == page_of(b'#refused 13 E3 BadAttribute #52 1\n'), 'one point')
    corners = ''.join('#%d=IFCCARTESIANPOINT((%d.,%d.));\n' % (60 + i, 100 * (i // 2), 100 * (i % 2)) for i in range(3))
    curve = '#52=IFCPOLYLINE((#60,#61,#62));\n' + corners
    ended = trial.run('convert', with_items('#50', profile + curve.replace('#62)', many.replace('#3', '#62') + ')')))
    ended.must(ended.status == 1 and b'#refused 13 E9 ElementTooLarge 6000012\n' in ended.page, 'three points')
    voids = profile.replace('CLOSEDPROFILEDEF(.AREA.,$,#52)', 'PROFILEDEFWITHVOIDS(.AREA.,$,#52,(%s))' % many.replace('#3', '#52'))
    ended = trial.run('convert', with_items('#50', voids + curve))
    ended.must(ended.status == 1 and ended.page.startswith(page_of(b'#refused 13 E9')[:-6]), 'voids')
    return trial, 'up to 32 bytes for each byte of input, as a point is longer than the reference to it'


@kind
def texts_without_a_line_end():
    """2^26 bytes in one token, closed and not, and in one line for `check`."""
    trial = Trial()
    whole = trial.run('convert', wall)
    size = 2 ** 26
    for token in ("'" + 'a' * size + "'", "'" * size, '/*' + '*' * size + '/$', '"' + '0' * size + '"', '1.' + '0' * size):
        ended = trial.run('convert', with_lines('#14=A(%s);' % token).replace(b'\n', b' '))
        ended.must(ended.is_like(whole), token[:3])
    for begun in ("'" + 'a' * size, "'" * (size + 1), '/*' + '/' * size, '"' + '0' * size, '.' + 'A' * size):
        text = wall[:end] + b'#14=A('
        ended = trial.run('convert', text + begun.encode())
        place = len(text) + (size if begun[:2] == "''" else 0)
        ended.must(ended.is_nothing_with(2, b'refused Syntax at %d\n' % place), begun[:3])
    shape = with_lines('').replace(b'1000.);\n#11', b'1000.' + b'0' * size + b'E0);\n#11')
    ended = trial.run('convert', shape)
    ended.must(ended.is_like(whole), 'a depth of 2^26 digits')
    for line, number in ((b'x' * size, 1), (page_of(b'')[:-6] + b'#skipped ' + b'1' * size, 3)):
        ended = trial.run('check', line)
        ended.must(ended.is_nothing_with(2, b'refused Line %d\n' % number), 'check of one line')
    return trial, ''


@kind
def page_of_skipped_lines():
    trial = Trial(each=100)
    text = page_of(b'#skipped 1\n' * (2 ** 26 // 11))
    ended = trial.run('check', text)
    ended.must(ended.is_nothing_with(0, b'sound\n'), 'a page of skipped lines')
    return trial, '%.1f bytes for each byte of input, as each item has the room of an element' % (2 ** 20 * ended.mebibytes / len(text))


square = [(0, 0), (1000, 0), (1000, 1000), (0, 1000)]


def wound(corners):
    """A page of one face with so many corners, which goes round a square over and over."""
    lines = 'o 13\n#frame 1000000000 0 0 0 1000000000 0 0 0 1000000000 0 0 0\n'
    lines += ''.join('#c %d %d 0 1\nv %d.000000 %d.000000 0.000000\n' % (x, y, x // 1000, y // 1000) for x, y in square)
    edges = '#e 0 -1 0 0\n#e 1 0 0 1000\n#e 0 1 0 1000\n#e -1 0 0 0\n'
    lines += '#p 0 0 1 0\n' + edges * (corners // 4) + 'f' + ' 1 2 3 4' * (corners // 4) + '\n#vol6 0\n'
    return page_of(lines.encode())


@kind
def face_of_many_corners():
    """A face of 100,000 corners, which `check` asks of each edge whether a corner is in front."""
    trial = Trial(240)
    ended = trial.run('check', wound(100000))
    ended.must(ended.is_nothing_with(7, b'check Unbalanced 1 2\n'), '100,000 corners')
    return trial, 'the time grows with the square of the corners'


program, folder = os.path.abspath(sys.argv[1]), sys.argv[2]
unknown = [name for name in sys.argv[3:] if name not in kinds]
if unknown:
    sys.exit('hostile: there is no kind %s; there are %s' % (unknown[0], ', '.join(kinds)))
failed = False
for name in sys.argv[3:] or kinds:
    try:
        trial, what = kinds[name]()
        line = '%d runs, at most %.2f s and %.1f MiB%s: ok' % (trial.count, trial.seconds, trial.mebibytes, what and ' (%s)' % what)
    except Wrong as wrong:
        line, failed = 'wrong: %s' % wrong, True
    print('%s: %s' % (name.replace('_', ' '), line), flush=True)
sys.exit(1 if failed else 0)
