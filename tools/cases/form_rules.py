"""The rules of a package as a whole: magic, digest, mode, start words, texts and files. package_cases.py
writes the cases, and says what a rule is."""
import hashlib

from .encoder import (
    COLUMNS,
    NO_PATHS,
    NO_UTF8,
    PATHS,
    UTF8,
    WITH_PATH,
    Change,
    Raw,
    Rules,
    Said,
    act,
    entry,
    events,
    file,
    flipped,
    log,
    logged,
    on_start,
    plus,
    started,
    table,
    whole_table,
)

FORM = Rules()
rule, allowed = FORM.rule, FORM.allowed


def with_file(path: str) -> Change:
    """One more file, in its place."""
    return {'files': [file(each, 'exit 0' if each == 'main' else 'x') for each in sorted([path, 'main'])]}



# ---- the whole
rule('The first 8 bytes are the magic. This is judged before the digest.', 'plain', [
    ('no byte', {'whole': lambda all: b''}), ('7 bytes of the magic', {'whole': lambda all: all[:7]}),
    ('a magic in lower case', {'magic': b'ldvpack1'}), ('a magic with the digit 3', {'magic': b'LDVPACK3'}),
    ('a byte before the magic', {'magic': b'\0LDVPACK1'}),
    ('a wrong magic and a wrong digest', {'whole': flipped(0)}),
    ('noise without magic', {'whole': lambda all: bytes(range(200))}),
] + [('byte %d of the magic changed' % n, {'body': flipped(n)}) for n in range(8)], [
    ('a script that ends with 0', {}), ('a script that ends with 255', {'files.0.content': 'exit 255'}),
], expect='magic')
rule('There are 40 bytes, and the last 32 are the SHA-256 of those before. This is judged before the form.',
     'plain', [
    ('8 bytes, the magic', {'whole': lambda all: all[:8]}), ('39 bytes', {'whole': lambda all: all[:39]}),
    ('40 bytes with another digest', {'whole': lambda all: all[:40]}),
    ('the last byte left out', {'whole': lambda all: all[:-1]}),
    ('the digest left out', {'whole': lambda all: all[:-32]}),
    ('a byte after the digest', {'whole': lambda all: all + b'\0'}),
    ('the last byte changed', {'whole': flipped(-1)}),
    ('the first byte of the digest changed', {'whole': flipped(-32)}),
    ('the highest bit of the digest changed', {'whole': flipped(-32, 128)}),
    ('a byte of the script changed', {'whole': flipped(53)}),
    ('the mode changed after the digest was made', {'whole': flipped(8, 3)}),
    ('a digest of zeros', {'digest': lambda body: bytes(32)}),
    ('a digest of no bytes', {'digest': lambda body: hashlib.sha256(b'').digest()}),
    ('a digest of all but the magic', {'digest': lambda body: hashlib.sha256(body[8:]).digest()}),
    ('a digest of the digest',
     {'digest': lambda body: hashlib.sha256(hashlib.sha256(body).digest()).digest()}),
    ('a digest written backward', {'digest': lambda body: hashlib.sha256(body).digest()[::-1]}),
    ('a digest of another kind with 32 bytes', {'digest': lambda body: hashlib.sha3_256(body).digest()}),
    ('a digest in hex', {'digest': lambda body: hashlib.sha256(body).hexdigest().encode()}),
    ('mode 3 and a wrong digest', {'mode': 3, 'whole': flipped(-1)}),
    ('noise after the magic', {'whole': lambda all: b'LDVPACK1' + bytes(range(200))}),
], [
    ('another seed, with the digest made anew', {'seed': 1}),
    ('another script, with the digest made anew', {'files.0.content': 'exit 1'}),
], expect='digest')
rule('Nothing is left out and nothing stands between the trace and the digest.', 'plain', [
    ('40 bytes, the magic and its digest', {'body': lambda body: body[:8]}),
    ('a zero byte before the digest', {'body': lambda body: body + b'\0'}),
    ('the digest twice', {'body': lambda body: body + hashlib.sha256(body).digest()}),
    ('the package twice, one digest', {'body': lambda body: body + body}),
    ('a byte between magic and mode', {'magic': b'LDVPACK1\0'}),
    ('rows, the last byte left out', 'rows', {'body': lambda body: body[:-1]}),
    ('logs, the last byte left out', 'logs', {'body': lambda body: body[:-1]}),
    ('rows and a byte', 'rows', {'body': lambda body: body + b'\1'}),
    ('a section of a trace twice', {'body': lambda body: body + body[60:]}),
] + [('cut off before byte %d' % n, {'body': lambda body, n=n: body[:n]})
     for n in (9, 10, 11, 14, 19, 26, 27, 30, 31, 35, 43, 44, 48, 53, 54, 55, 56, 60, 64, 68, 72, 73, 77, 81,
               85, 89, 90)], [
    ('rows read again', 'rows', {}), ('logs', 'logs', {}), ('every act', 'acts', {}),
])
rule('Numbers have the highest byte first.', 'plain', [
    ('a count of start words with the lowest byte first', {'start': Raw(b'\1\0' + b'\0\0\0\4main')}),
    ('steps with the lowest byte first', {'steps': Raw(b'\1\0\0\0')}),
    ('a length with the lowest byte first', {'files.0.path': Raw(b'\4\0\0\0main')}),
    ('the step of an event with the lowest byte first', {'trace.1.step': Raw(b'\1\0\0\0')}),
    ('a row number below next with the lowest byte first', 'rows', {
        'tables.0.next': 0x00000100, 'tables.0.rows.1.number': 0x00010000}),
], [
    ('steps of four different bytes', {'steps': 0x00010203}),
    ('a seed of eight different bytes', {'seed': 0x0102030405060708}),
    ('a row number below next with the highest byte first', 'rows', {
        'tables.0.next': 0x00010000, 'tables.0.rows.1.number': 0x00000100}),
    ('numbers of eight different bytes', 'rows', {'tables.0.rows.1.values.2': 0x0102030405060708}),
    ('the least and the greatest number', 'rows', {
        'tables.0.rows.0.values.2': -2 ** 63, 'tables.0.rows.1.values.2': 2 ** 63 - 1}),
])

# ---- mode, start, seed and steps
rule('The mode is 1 or 2.', 'plain', [
    ('mode 0', {'mode': 0}), ('mode 3', {'mode': 3}), ('mode 255', {'mode': 255}),
    ('mode 129', {'mode': 129}),
], [
    ('mode 1', {'seed': 11}), ('mode 2', 'excluded', {}),
])
rule('An excluded package has no table.', 'excluded', [
    ('an excluded package with a table', 'rows', {'mode': 2}),
    ('an excluded package with a table without rows', whole_table(table('t', COLUMNS))),
], [
    ('an excluded package with a statement asked and no table', 'rows', {
        'mode': 2, 'tables': [], 'files.0.content': 'exit 0'}),
    ('an included package with a table without rows', 'plain', whole_table(table('t', COLUMNS))),
])
rule('An included package has no log.', 'logs', [
    ('an included package with two logs', {'mode': 1}),
    ('an included package with one log', 'plain', logged(log([0]))),
], [
    ('an included package without logs', {'mode': 1, 'logs': []}),
    ('an excluded package with one log', 'excluded', logged(log([0]))),
    ('an excluded package without logs', {'logs': []}),
])
rule('There are 1 to 256 start words.', 'plain', [
    ('no start word', {'start': []}), ('257 start words', {'start': ['main'] + [''] * 256}),
    ('65,535 start words said', {'start': Said(65535, ['main'])}),
], [
    ('1 start word', {'seed': 12}), ('256 start words', {'start': ['main'] + [''] * 255}),
    ('start words of any bytes', {'start': ['main', '', '\0', '\n\x7f', 'x' * 256, 'main', 'é']}),
])
rule('Steps are 1 to 10,000,000.', 'plain', [
    ('steps 0', {'steps': 0, 'trace': [started()]}), ('steps 10,000,001', {'steps': 10000001}),
    ('steps 4,294,967,295', {'steps': 2 ** 32 - 1}),
], [
    ('steps 1 and no event after the start', {'trace': [started()]}),
    ('steps 10,000,000', {'steps': 10000000}),
    ('fewer steps than its run takes', {
        'files.0.content': 'print 1\nprint 2\nexit 3',
        'output': 'outcome 1 0\nprocess 0 3 4 0\n1\n2\n\n'}),
    ('the last event at step 10,000,000', {'steps': 10000000, 'trace.1.step': 10000000}),
])
allowed('Any seed is one.', 'plain', [
    ('the greatest seed', {'seed': 2 ** 64 - 1}), ('the seed of the highest bit', {'seed': 2 ** 63}),
])
rule('The first start word is a file.', 'plain', [
    ('the start word is no file', {'files.0.path': 'other'}), ('there is no file', {'files': []}),
    ('the start word is almost a file', {'files.0.path': 'maim'}),
    ('the start word in other case is a file', {'files.0.path': 'Main'}),
    ('only the second start word is a file', {'start': ['no', 'main'], 'trace.0.path': 'no'}),
], [
    ('the start word is one file of many',
     {'files': [file('a', 'x'), file('main', 'exit 7'), file('z', 'x')]}),
    ('a start word that is no other file', {'start': ['main', 'other']}),
])
rule('The first start word is a whole file.', 'plain', [
    ('the start word is only present', {'files.0.content': None}),
    ('the start word is only present, and a script is beside it',
     {'files': [file('main'), file('other', 'exit 0')]}),
], [
    ('another file is only present', {'files': [file('main', 'exit 0'), file('other')]}),
    ('an empty file is whole', {'files.0.content': ''}),
])
rule('The first start word is a script.', 'plain', [
    ('a script with a line that is no instruction', {'files.0.content': 'foo'}),
    ('a script with a bad second line', {'files.0.content': 'exit 0\nfoo'}),
    ('a script of bytes that are not UTF-8', {'files.0.content': b'# \xff'}),
    ('a script that goes to a label that is not there', {'files.0.content': 'exit 0\ngoto no'}),
    ('a script with a label twice', {'files.0.content': 'a:\na:\nexit 0'}),
    ('a script with a quote left open', {'files.0.content': 'print "a'}),
    ('a script with CR at its end', {'files.0.content': 'exit 0\r'}),
    ('a script in upper case', {'files.0.content': 'EXIT 0'}),
    ('a good script beside a bad start', {'files': [file('main', 'foo'), file('other', 'exit 0')]}),
], [
    ('a script of one comment', {'files.0.content': '# foo'}),
    ('a script with CR LF', {'files.0.content': 'exit 0\r\n'}),
    ('a script with blanks', {'files.0.content': '\n\t exit  3 \n'}),
    ('a script with a label', {'files.0.content': 'a:\nb:\n'}),
    ('a bad script beside a good start', {'files': [file('bad', 'foo'), file('main', 'exit 0')]}),
])

# ---- texts and paths
rule('A text is UTF-8.', 'plain',
     [('a start word with ' + what, {'start': ['main', text]}) for what, text in NO_UTF8] + [
         ('a path that is not UTF-8', {'files': [file(b'a\xff', 'x'), file('main', 'exit 0')]}),
         ('a path in an act that is not UTF-8', events(act('read', b'f\xc3'))),
         ('a value that is not UTF-8', 'rows', {'tables.0.rows.0.values.1': b'\xff'}),
         ('a statement that is not UTF-8', 'logs', {'logs.0.entries.1.text': b'\xff'}),
         ('a parameter that is not UTF-8', 'logs', {'logs.0.entries.0.params.1': b'\xff'}),
         ('a value of a reply that is not UTF-8', 'logs', {'logs.0.entries.0.reply.rows.0.1': b'\xff'}),
         ('a refused table that is not UTF-8', 'logs', {'logs.1.entries.0.reply.table': b'\xff'}),
         ('a value of a refused key that is not UTF-8', 'logs', {'logs.1.entries.0.reply.key.1': b'\xff'})],
     [('a start word with ' + what, {'start': ['main', text]}) for what, text in UTF8] + [
         ('a path outside ASCII', {'files': [file('main', 'exit 0'), file('é', 'x')]}),
         ('a path in an act outside ASCII', events(act('read', 'é'))),
         ('a value outside ASCII', 'rows', {'tables.0.rows.0.values.1': 'é\0\n'}),
         ('texts outside ASCII in a log', 'logs', {
             'logs.0.entries.0': entry('é', ['ü'], dict(rows=[['ß']])), 'logs.1.entries.0.reply': dict(
                 refused=6, table='é', key=['ö'])}),
         ('a file of any bytes', {'files': [file('a', bytes(range(256))), file('main', 'exit 0')]})])
rule('The path of a file has 1 to 255 bytes, none below 32 and none 127.', 'plain',
     [('a path that ' + what, with_file(path)) for what, path in NO_PATHS]
     + [('a present file whose path is empty', {'files': [file(''), file('main', 'exit 0')]})],
     [('a path that ' + what, with_file(path)) for what, path in PATHS])
rule('The first start word is a path.', 'plain',
     [('a start that ' + what, on_start(path)) for what, path in NO_PATHS],
     [('a start that ' + what, on_start(path)) for what, path in PATHS])
rule('The path of an act is one.', 'plain',
     [('%s, a path that %s' % (name, what), events(act(name, path)))
      for name in WITH_PATH for what, path in (NO_PATHS if name == 'read' else [NO_PATHS[n]
                                                                                for n in (0, 1, 4, 6)])],
     [('%s, a path that %s' % (name, what), events(act(name, path)))
      for name in WITH_PATH for what, path in (PATHS if name == 'read' else [PATHS[1]])])

# ---- files
rule('A file is whole (1) or present (2).', 'plain',
     [('a file with the tag %d' % n, {'files.0.content': Raw(bytes([n]) + b'\0\0\0\6exit 0')})
      for n in (0, 3, 255)]
     + [('a present file with the tag %d' % n,
         {'files': [file('main', 'exit 0'), file('z', Raw(bytes([n])))]})
        for n in (0, 3)]
     + [('a present file with bytes', {'files': [file('main', 'exit 0'), file('z', Raw(b'\2\0\0\0\1x'))]})],
     [('a file with the tag 1', {'files': [file('main', 'exit 0'), file('z', Raw(b'\1\0\0\0\1x'))]}),
      ('a file with the tag 2', {'files': [file('main', 'exit 0'), file('z', Raw(b'\2'))]}),
      ('present files in an excluded package', 'excluded', {'files': plus(file('z'))})])
rule('Files are sorted by the bytes of their paths, and no path is there twice.', 'plain', [
    ('files out of order', {'files': [file('main', 'exit 0'), file('a', 'x')]}),
    ('a path before its own beginning', {'files': [file('main', 'exit 0'), file('maina'), file('mai')]}),
    ('the longer path first', {'files': [file('ab', 'x'), file('a', 'x'), file('main', 'exit 0')]}),
    ('lower case before upper case', {'files': [file('a', 'x'), file('B', 'x'), file('main', 'exit 0')]}),
    ('the last two of four files are out of order', {'files': [
        file('a'), file('main', 'exit 0'), file('z'), file('y')]}),
    ('a file twice', {'files': [file('main', 'exit 0'), file('main', 'exit 0')]}),
    ('a file whole and present', {'files': [file('main', 'exit 0'), file('main')]}),
    ('a file present and whole', {'files': [file('a'), file('a', 'x'), file('main', 'exit 0')]}),
    ('letters of two units before those of one', {
        'files': [file('main', 'exit 0'), file('\U00010000'), file('\uffff')]}),
], [
    ('files in order', {'files': [file('a', 'x'), file('main', 'exit 0')]}),
    ('a path after its own beginning', {'files': [file('a', 'x'), file('ab', 'x'), file('main', 'exit 0')]}),
    ('upper case before lower case', {'files': [file('B', 'x'), file('a', 'x'), file('main', 'exit 0')]}),
    ('by bytes and not by units', {'files': [file('main', 'exit 0'), file('\uffff'), file('\U00010000')]}),
    ('two files of the same bytes', {'files': [file('a', 'exit 0'), file('main', 'exit 0')]}),
    ('a space sorts first', {'files': [file(' '), file('!'), file('main', 'exit 0')]}),
])
