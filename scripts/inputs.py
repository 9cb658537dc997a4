"""Writes input files for the figures of docs/PERFORMANCE.md to standard output.

    python3 scripts/inputs.py large            a wall in a file of 2^27 bytes, by blanks
    python3 scripts/inputs.py points N         a wall in a file of some N bytes of points
    python3 scripts/inputs.py walls N          N walls, each with a window
    python3 scripts/inputs.py holes N          a slab with N square holes
    python3 scripts/inputs.py half_spaces N    a block less N half-spaces, as openings, N a square of an even number
    python3 scripts/inputs.py chain N          a block less N half-spaces, one after the other
    python3 scripts/inputs.py boxes N          the union of N boxes, no two of which have a plane in common
    python3 scripts/inputs.py brep N           a closed shell of about N triangles
    python3 scripts/inputs.py edges N          a prism over a polygon of N edges
    python3 scripts/inputs.py page N           the elements of the page on standard input over and over, to about N bytes
"""
import math
import os
import sys

here = os.path.dirname(os.path.abspath(__file__))
wall = open(os.path.join(here, '..', 'examples', 'wall.ifc')).read()
head, tail = wall[:wall.index('#9=')], wall[wall.index('#11='):]
end = wall.rindex('ENDSEC;')


def large():
    sys.stdout.write(wall[:end])
    left = 2 ** 27 - len(wall)
    while left > 0:
        part = min(left, 2 ** 20)
        sys.stdout.write(' ' * part)
        left -= part
    sys.stdout.write(wall[end:])


def points(size):
    sys.stdout.write(wall[:end])
    written, number = len(wall), 1000
    while written < size:
        line = '#%d=IFCCARTESIANPOINT((%d.5,%d.25,%d.125));\n' % (number, number, 2 * number, 3 * number)
        sys.stdout.write(line)
        written += len(line)
        number += 1
    sys.stdout.write(wall[end:])


def placed(number, place, relative):
    return ['#%d=IFCCARTESIANPOINT((%s));' % (number, ','.join('%d.' % x for x in place)),
            '#%d=IFCAXIS2PLACEMENT3D(#%d,$,$);' % (number + 1, number),
            '#%d=IFCLOCALPLACEMENT(%s,#%d);' % (number + 2, relative, number + 1)]


def prism(number, x, y, height):
    return ['#%d=IFCRECTANGLEPROFILEDEF(.AREA.,$,$,%d.,%d.);' % (number, x, y),
            '#%d=IFCEXTRUDEDAREASOLID(#%d,$,#8,%d.);' % (number + 1, number, height),
            "#%d=IFCSHAPEREPRESENTATION(#5,'Body','SweptSolid',(#%d));" % (number + 2, number + 1),
            '#%d=IFCPRODUCTDEFINITIONSHAPE($,$,(#%d));' % (number + 3, number + 2)]


def file_of(lines):
    print(head + '\n'.join(lines) + '\nENDSEC;\nEND-ISO-10303-21;')


def walls(count):
    lines = []
    for i in range(count):
        n = 100 + 20 * i
        lines += placed(n, (6000 * (i % 150), 6000 * (i // 150), 0), '$') + prism(n + 3, 5000, 200, 3000)
        lines += ["#%d=IFCWALL('',$,$,$,$,#%d,#%d,$,$);" % (n + 7, n + 2, n + 6)]
        lines += placed(n + 8, (0, 0, 900), '#%d' % (n + 2)) + prism(n + 11, 800 + 100 * (i % 5), 400, 1200)
        lines += ["#%d=IFCOPENINGELEMENT('',$,$,$,$,#%d,#%d,$,$);" % (n + 15, n + 10, n + 14),
                  "#%d=IFCRELVOIDSELEMENT('',$,$,$,#%d,#%d);" % (n + 16, n + 7, n + 15)]
    file_of(lines)


def holes(count):
    lines = placed(10000, (0, 20000, 0), '$') + prism(10003, 16000, 11000, 250)
    lines += ["#10007=IFCSLAB('',$,$,$,$,#10002,#10006,$,$);"] + prism(10008, 500, 500, 350)
    for i in range(count):
        n = 10100 + 10 * i
        lines += placed(n, (-7250 + 1000 * (i % 15), -4750 + 1000 * (i // 15), -50), '#10002')
        lines += ["#%d=IFCOPENINGELEMENT('',$,$,$,$,#%d,#10011,$,$);" % (n + 3, n + 2),
                  "#%d=IFCRELVOIDSELEMENT('',$,$,$,#10007,#%d);" % (n + 4, n + 3)]
    file_of(lines)


def with_item(lines, item):
    print(head + '\n'.join(lines) + '\n' + tail.replace('(#10)', '(#%d)' % item), end='')


def half_space(number, place, normal):
    return ['#%d=IFCCARTESIANPOINT((%.3f,%.3f,%.3f));' % ((number,) + place),
            '#%d=IFCDIRECTION((%.6f,%.6f,%.6f));' % ((number + 1,) + normal),
            '#%d=IFCAXIS2PLACEMENT3D(#%d,#%d,$);' % (number + 2, number, number + 1),
            '#%d=IFCPLANE(#%d);' % (number + 3, number + 2), '#%d=IFCHALFSPACESOLID(#%d,.F.);' % (number + 4, number + 3)]


def half_spaces(count):
    side = math.isqrt(count)
    lines, numbers = ['#15=IFCCARTESIANPOINT((-400.,-400.,0.));', '#16=IFCAXIS2PLACEMENT3D(#15,$,$);',
                      '#14=IFCBLOCK(#16,800.,800.,1000.);'], []
    for i in range(count):
        a, b = 2 * (i % side) - side + 1, 2 * (i // side) - side + 1
        n = 1000 + 10 * i
        lines += half_space(n, (20 * a, 20 * b, 800 - (a * a + b * b) // 2), (a, b, 20))
        numbers.append('#%d' % (n + 4))
    lines += ["#25=IFCSHAPEREPRESENTATION(#5,'Body','SweptSolid',(%s));" % ','.join(numbers),
              '#26=IFCPRODUCTDEFINITIONSHAPE($,$,(#25));', "#27=IFCOPENINGELEMENT('3',$,$,$,$,#7,#26,$,$);",
              "#28=IFCRELVOIDSELEMENT('4',$,$,$,#13,#27);"]
    with_item(lines, 14)


def chain(count):
    lines, last = ['#14=IFCBLOCK(#4,2000.,2000.,1000.);'], 14
    for i in range(count):
        n, turn = 100 + 10 * i, 2 * math.pi * i / count
        x, y = math.cos(turn), math.sin(turn)
        lines += half_space(n, (1000 + 900 * x, 1000 + 900 * y, 500), (x, y, 0.3))
        lines.append('#%d=IFCBOOLEANRESULT(.DIFFERENCE.,#%d,#%d);' % (n + 5, last, n + 4))
        last = n + 5
    with_item(lines, last)


def boxes(count):
    lines, last = [], 0
    for i in range(count):
        n = 100 + 4 * i
        lines.append('#%d=IFCCARTESIANPOINT((%d.,%d.,%d.));' % (n, 211 * i, 173 * i, 97 * i))
        lines.append('#%d=IFCAXIS2PLACEMENT3D(#%d,$,$);' % (n + 1, n))
        lines.append('#%d=IFCBLOCK(#%d,%d.,%d.,%d.);' % (n + 2, n + 1, 1000 + 13 * i, 1500 + 7 * i, 900 + 11 * i))
        if i > 0:
            lines.append('#%d=IFCBOOLEANRESULT(.UNION.,#%d,#%d);' % (n + 3, last, n + 2))
        last = n + 3 if i > 0 else n + 2
    with_item(lines, last)


def brep(count):
    side, radius = round(math.sqrt(count / 2)) + 1, 2000
    places, numbers, faces = [], {}, []

    def place(i, j):
        key = (i, j % side) if 0 < i < side else i
        if key not in numbers:
            down, turn = math.pi * i / side, 2 * math.pi * (j % side) / side
            numbers[key] = len(places)
            places.append((radius * math.sin(down) * math.cos(turn), radius * math.sin(down) * math.sin(turn), -radius * math.cos(down)))
        return numbers[key]

    for i in range(side):
        for j in range(side):
            a, b, c, d = place(i, j), place(i, j + 1), place(i + 1, j + 1), place(i + 1, j)
            faces += [t for t in ((a, b, c), (a, c, d)) if len(set(t)) == 3]
    lines = ['#%d=IFCCARTESIANPOINT((%d.,%d.,%d.));' % ((1000 + k,) + tuple(round(x) for x in p)) for k, p in enumerate(places)]
    for k, face in enumerate(faces):
        n = 100000 + 3 * k
        lines += ['#%d=IFCPOLYLOOP((%s));' % (n, ','.join('#%d' % (1000 + corner) for corner in face)),
                  '#%d=IFCFACEOUTERBOUND(#%d,.T.);' % (n + 1, n), '#%d=IFCFACE((#%d));' % (n + 2, n + 1)]
    lines += ['#50=IFCCLOSEDSHELL((%s));' % ','.join('#%d' % (100002 + 3 * k) for k in range(len(faces))), '#51=IFCFACETEDBREP(#50);']
    with_item(lines, 51)


def edges(count):
    at = [(1000 * math.cos(2 * math.pi * k / count), 1000 * math.sin(2 * math.pi * k / count)) for k in range(count)]
    lines = ['#%d=IFCCARTESIANPOINT((%d.,%d.));' % (1000 + k, round(x), round(y)) for k, (x, y) in enumerate(at)]
    lines += ['#50=IFCPOLYLINE((%s));' % ','.join('#%d' % (1000 + k % count) for k in range(count + 1)),
              '#51=IFCARBITRARYCLOSEDPROFILEDEF(.AREA.,$,#50);', '#52=IFCEXTRUDEDAREASOLID(#51,$,#8,1000.);']
    with_item(lines, 52)


def page(size):
    lines = sys.stdin.read().splitlines(True)
    elements, corners = lines[2:-1], sum(line.startswith('#c') for line in lines)
    sys.stdout.writelines(lines[:2])
    written = before = 0
    while written < size:
        for line in elements:
            if line.startswith('f '):
                line = 'f ' + ' '.join(str(int(i) + before) for i in line.split()[1:]) + '\n'
            sys.stdout.write(line)
            written += len(line)
        before += corners
    sys.stdout.write(lines[-1])


shapes = {'points': points, 'walls': walls, 'holes': holes, 'half_spaces': half_spaces, 'chain': chain, 'boxes': boxes, 'brep': brep,
          'edges': edges, 'page': page}
if sys.argv[1:] == ['large']:
    large()
elif len(sys.argv) == 3 and sys.argv[1] in shapes:
    shapes[sys.argv[1]](int(sys.argv[2]))
else:
    sys.exit(__doc__)
