"""Inputs of the listing program, what it has to print, and why. No reader made these answers: each one was worked out by hand.

They follow document 01 ("Set-up text", "Refusals at start", "The listing program", "Points on either side") and 003, section 2.
"Decided" marks an answer that rests on a decision about what both leave open. Inputs are the whole standard input, so line 1 of
the text stands behind the first line feed. Long inputs are made from parts and not stored.
"""

POINTS = []


def point(given, printed, why):
    POINTS.append((given, printed, why))


def refused(number, line):
    return b'refused %d line %d\n' % (number, line)


# Frames for one partition: CODE on line 1, a segment on line 2. What they list is written out once.
def code(path):
    return b'A\nCODE[0] = ' + path + b';\n'


def dseg(body):
    return b'A\nCODE[0] = /c;\nDSEG[0] = ' + body + b';\n'


def dpath(path):
    return dseg(b'{ ' + path + b', 0, RW }')


def mseg(size):
    return b'A\nCODE[0] = /c;\nMSEG[0] = { ' + size + b', 0, RW };\n'


ONE = b'partitions 1 dsegs 0 msegs 0\n'


def lists_d(path):
    return b'partitions 1 dsegs 1 msegs 0\n0 D 0 RW ' + path + b'\n'


def lists_m(size):
    return b'partitions 1 dsegs 0 msegs 1\n0 M 0 RW ' + size + b'\n'


# The documents' own set-ups.
point(b'AAP\nCODE[0] = /desk.out;\nCODE[1] = /alarm.out;\nDSEG[0] = { "/route sheet.txt", 0, RW, RO, NA };\n'
      b'MSEG[0] = { 2KB, 1, NA, RW, NA };\n',
      b'partitions 3 dsegs 1 msegs 1\n0 D 0 RW /route sheet.txt\n1 D 0 RO /route sheet.txt\n1 M 0 RW 2048\n',
      'the sample of 01, and what 01 says it gives')
point(b'AAP\n# programs\nCODE[0] = /shell.out;\nCODE[1] = /emergency.out;\n\n# files\n'
      b'DSEG[0] = { "/passwords.txt", 0, RW, NA, NA };\nDSEG[1] = { "/clearance.txt", 0, RO, NA, NA };\n'
      b'DSEG[2] = { "/contacts.txt", 1, NA, RW, NA };\nDSEG[3] = { "/stuff.txt", 2, RO, RO, NA };\n\n# memory\n'
      b'MSEG[0] = { 1MB, 0, RW, NA, NA };\n',
      b'partitions 3 dsegs 4 msegs 1\n0 D 0 RW /passwords.txt\n0 D 1 RO /clearance.txt\n0 D 3 RO /stuff.txt\n0 M 0 RW 1048576\n'
      b'1 D 2 RW /contacts.txt\n1 D 3 RO /stuff.txt\n',
      'the statements of the sample in 003: DSEG[3] has a passive host with NA, which is fine')

# The first line.
point(b'', refused(401, 0), 'nothing at all: no line feed')
point(b'A', refused(401, 0), 'no line feed behind the first line')
point(b'A' * 100000, refused(401, 0), 'the same, and long: 401 goes before 402')
point(b'\n', refused(401, 0), 'an empty first line is no partition')
point(b'\nCODE[0] = /c;\n', refused(401, 0), 'the same with a text behind')
point(code(b'/c'), ONE, 'one partition is enough')
point(b'AAAAAAAA\n' + b''.join(b'CODE[%d] = /c;' % p for p in range(8)), b'partitions 8 dsegs 0 msegs 0\n', 'eight are allowed')
point(b'AAAAAAAAA\n' + b''.join(b'CODE[%d] = /c;' % p for p in range(8)), refused(401, 0), 'nine are not')
point(b'A' * 257 + b'\nCODE[0] = /c;', refused(401, 0), '257 letters are not 1: the count must not wrap')
point(b'P\n', refused(401, 0), 'none active')
point(b'PPPPPPPP\n', refused(401, 0), 'none of eight active')
point(b'PPPPPPPA\nCODE[7] = /c;\n', b'partitions 8 dsegs 0 msegs 0\n', 'one of eight active, the last')
point(b'A\r\nCODE[0] = /c;\n', refused(401, 0), 'CR is another byte than A and P')
point(b'a\nCODE[0] = /c;\n', refused(401, 0), 'a small letter')
point(b'A \nCODE[0] = /c;\n', refused(401, 0), 'a space')
point(b' A\nCODE[0] = /c;\n', refused(401, 0), 'a space in front')
point(b'A#\nCODE[0] = /c;\n', refused(401, 0), 'the first line has no comments')
point(b'APXA\n', refused(401, 0), 'another letter in the middle')
point(b'A\0\nCODE[0] = /c;\n', refused(401, 0), 'a zero byte')
point(b'P\n' + b' ' * 16385, refused(401, 0), '401 goes before 402')

# The length of the text.
GOOD = b'CODE[0] = /c;'
point(b'A\n' + GOOD + b' ' * (16384 - len(GOOD)), ONE, '16,384 bytes, filled up with spaces')
point(b'A\n' + GOOD + b' ' * (16385 - len(GOOD)), refused(402, 0), 'one byte more')
point(b'A\n' + b'\n' * (16384 - len(GOOD)) + GOOD, ONE, 'a statement that ends at the last of 16,384 bytes')
point(b'A\n' + b'\n' * (16384 - len(GOOD)) + GOOD + b'\n', refused(402, 0), 'a line feed at the end counts')
point(b'AAAAAAAP\n' + b'#' * 16384, refused(414, 0), 'the first line does not count: 16,384 bytes of comment, then no CODE')
point(b'AAAAAAAP\n' + b'#' * 16385, refused(402, 0), 'a comment counts')
point(b'A\n' + b'\n' * 16383 + b'?', refused(404, 16384), 'the last line that can be')
point(b'A\n' + b'?' * 16384, refused(404, 1), 'not too long: 404')
point(b'A\n' + b'?' * 16385, refused(402, 0), '402 goes before 404')
point(b'A\n' + GOOD + b' ' * 65536, refused(402, 0), '65,536 more: the length must not wrap')
point(b'A\n' + GOOD * 100000, refused(402, 0), 'more than a megabyte')

# Comments: from '#' to the line's end, everywhere.
point(b'A\n', refused(414, 0), 'an empty text is well formed, and has no CODE')
point(b'A\n \t\n\n# none\n#', refused(414, 0), 'nothing but gaps and comments')
point(b'A\n#\nCODE[0] = /c;', ONE, 'an empty comment in front')
point(b'A\nCODE[0] = /c;#', ONE, 'a comment behind the last statement that no line feed ends')
point(b'A\nCODE[0] = /c; # a # b " ; \' CODE[0] = /x;\n', ONE, 'quotes, statements and marks in a comment are nothing')
point(b'A\n# "\nCODE[0] = "/c"; # "\n', ONE, 'a quote mark in a comment opens nothing')
point(b'A\nCODE[0] = /c; #' + bytes(b for b in range(256) if b != 10) + b'\n', ONE, 'a comment may hold any byte')
point(b'A\nCODE[0] = /c; # x\rCODE[0] = /d;\n', ONE, 'only a line feed ends a comment, CR does not')
point(b'A\nCODE#\n[#\n0#\n]#\n=#\n/c#\n;#\nDSEG#\n[#\n0#\n]#\n=#\n{#\n"/d"#\n,#\n0#\n,#\nRW#\n}#\n;#\n', lists_d(b'/d'),
      'a comment directly behind every token')
point(b'A\n' + b'CODE[0] = /c;\nMSEG[0] = {#1\n2KB#3\n,#,\n0#0\n,#NA\nRW#}\n}#;\n;', lists_m(b'2048'), 'and in an MSEG')
point(b'A\nCO#\nDE[0] = /c;\n', refused(404, 1), 'a comment parts a word')
point(b'A\nCODE[0#\n0] = /c;\n', refused(404, 1), 'a comment parts a number')
point(mseg(b'2#\nKB'), refused(404, 2), 'a comment parts a number from its unit')
point(code(b'"/c#d"'), refused(404, 1), "'#' inside quotes: the closing mark is in the comment")
point(b'A\nCODE[0] = "/c#d"\n";\n', refused(404, 1), 'the next line cannot close it, since a line feed is no byte of a path')
point(b'A\nCODE[0] = "/c#";', refused(404, 1), 'the same at the end of the text')
point(b'A\nCODE[0] = "#/c";\n', refused(404, 1), 'directly behind the opening mark')
point(b'A\nCODE[0] = "/c"#"\n;\n', ONE, 'directly behind the closing mark it is a comment like any other')
point(b'A\nCODE[0] = /c;\nDSEG[0] = { /d#x"\n, 0, RW };\n', lists_d(b'/d'), 'directly behind an unquoted path it ends the path')
point(code(b'/c#x'), refused(404, 1), 'and hides the semicolon')
point(b'A\nCODE[0] = /c#x\n;\n', ONE, 'decided: /c is the path, the semicolon may stand on the next line')
point(b'A\nCODE[0] = /#c\n;\n', refused(404, 1), 'the path is / alone, too short')
point(b'A\nCODE[0] = #/c;\n/d;\n', ONE, 'in front of the path')
point(b'A\n#\n#\n# x\n?\n', refused(404, 4), 'the line feed behind a comment counts as any other')

# Gaps, and bytes that are none.
point(b'A\nCODE[0]=/c;DSEG[0]={/d,0,RW};MSEG[0]={1,0,RW};', b'partitions 1 dsegs 1 msegs 1\n0 D 0 RW /d\n0 M 0 RW 1\n',
      'no gap is needed')
point(b'A\n\t CODE\t[\n 0\n\n]\t\t=\n/c\t\n;\n\n DSEG [ 0 ] = { "/d"\n,\t0\n,\nRW\t}\n;', lists_d(b'/d'), 'any gap will do')
point(b'A\nC ODE[0] = /c;\n', refused(404, 1), 'a gap parts a word')
for byte in b'\0', b'\x0b', b'\x0c', b'\r', b'\x1f', b'\x7f', b'\x85', b'\xa0', b'\xff':
    point(b'A\n\nCODE[0] ' + byte + b'= /c;\n', refused(404, 2), 'a byte that is no gap and no token, in a statement')
    point(b'A\nCODE[0] = /c;\n ' + byte + b'\n', refused(404, 2), 'and behind one: it is the first token of the next')
    point(code(b'"/c' + byte + b'"'), refused(404, 1), 'and in quotes')
    point(code(b'/c' + byte), refused(404, 1), 'and in an unquoted path')
point(b'A\nCODE[0] = /c;\r\n', refused(404, 1), 'CR LF: the CR is the first token of another statement, on line 1')
point(b'A\n\r\nCODE[0] = /c;\n', refused(404, 1), 'CR LF in an empty line')
point(b'A\nCODE[0] =\r\n/c;\n', refused(404, 1), 'CR LF inside a statement')
point(b'A\nCODE[0] = /c; # x\r\n', ONE, 'CR LF with the CR in a comment')

# Malformed statements; the line is that of the first token.
point(b'A\nCODE[0] = /c;;\n', refused(404, 1), 'a semicolon alone is no statement')
point(b'A\n\n\nCODE\n[0]\n= c;\n', refused(404, 3), 'begins on line 3, breaks on line 5')
point(b'A\nCODE[0] = /c; ?\n', refused(404, 1), 'begins on the line on which another ends')
point(b'A\nCODE[0] = /c\nDSEG[0] = { /d, 0, RW };\n', refused(404, 1), 'no semicolon: the first statement is the broken one')
point(b'A\nCODE[0] = /c', refused(404, 1), 'no semicolon, and the text ends')
for bad in (b'C', b'CODE', b'CODE[', b'CODE[0', b'CODE[0]', b'CODE[0] =', b'CODE[0] = "', b'CODE[0] = "/c', b'CODE[0] = "/c"',
            b'DSEG[0] = {', b'DSEG[0] = { /d', b'DSEG[0] = { /d,', b'DSEG[0] = { /d, 0', b'DSEG[0] = { /d, 0,',
            b'DSEG[0] = { /d, 0, R', b'DSEG[0] = { /d, 0, RW',
            b'DSEG[0] = { /d, 0, RW }', b'MSEG[0] = {', b'MSEG[0] = { 1', b'MSEG[0] = { 1K'):
    point(b'A\n\n' + bad, refused(404, 2), 'cut off')
for bad in (b'code[0] = /c;', b'Code[0] = /c;', b'CODEX[0] = /c;', b'XCODE[0] = /c;', b'GSEG[0] = { 1, 0, RW };', b'CODE(0) = /c;',
            b'CODE 0 = /c;', b'CODE[] = /c;', b'CODE[-0] = /c;', b'CODE[+0] = /c;', b'CODE[0x0] = /c;', b'CODE[0 0] = /c;',
            b'CODE[[0]] = /c;', b'CODE[0] /c;', b'CODE[0] := /c;', b'CODE[0] == /c;', b'CODE[0] = ;', b'CODE[0] = { /c };',
            b'CODE[0] = /c,', b'DSEG[0] = /d;', b'DSEG[0] = { 1, 0, RW };', b'MSEG[0] = { /d, 0, RW };', b'MSEG[0] = 1, 0, RW;'):
    point(b'A\n' + bad + b'\nCODE[0] = /c;\n', refused(404, 1), 'not what 003 writes')
for bad in (b'{ /d, 0, rw }', b'{ /d, 0, RX }', b'{ /d, 0, R W }', b'{ /d, 0, RWX }', b'{ /d, 0, RWRW }', b'{ /d, 0, RW RW }',
            b'{ /d, 0, RW; RW }', b'{ /d, 0, "RW" }', b'{ /d, , RW }', b'{ /d, RW, 0 }', b'{ /d 0, RW }',
            b'{ /d, 0 RW }', b'{ /d,, 0, RW }',
            b'{ , /d, 0, RW }', b'{ /d, 0,, RW }', b'( /d, 0, RW )', b'{ { /d, 0, RW } }', b'{ /d, 0, RW } }', b'{ /d, 0KB, RW }'):
    point(dseg(bad), refused(404, 2), 'not what 003 writes')
point(dseg(b'{ /d, 0 }'), refused(404, 2), 'no permission at all: 003 asks for one or more')
point(dseg(b'{ /d, 0, }'), refused(404, 2), 'a comma and no permission')
point(dseg(b'{ /d, 0, RW, }'), refused(404, 2), 'a trailing comma')
point(b'A\nCODE[0] = /c;\nMSEG[0] = { 1, 0 };\n', refused(404, 2), 'no permission at all')

# The order of statements.
D0, M0 = b'DSEG[0] = { /d, 0, RW };\n', b'MSEG[0] = { 1, 0, RW };\n'
point(b'AA\nCODE[1] = /b;\nCODE[0] = /a;\n', b'partitions 2 dsegs 0 msegs 0\n', 'CODE statements have no order among themselves')
point(b'A\n' + D0 + b'CODE[0] = /c;\n', refused(404, 2), 'CODE behind DSEG')
point(b'A\n' + M0 + b'CODE[0] = /c;\n', refused(404, 2), 'CODE behind MSEG')
point(b'A\nCODE[0] = /c;\n' + M0 + D0, refused(404, 3), 'DSEG behind MSEG')
point(b'A\n' + D0 + M0, refused(414, 0), 'no CODE at all: the order holds, so it is 414')
point(b'A\nCODE[0] = /c;\n' + D0 + b'CODE[0] = /c;\n', refused(404, 3), '404 goes before 408')
point(b'A\nCODE[0] = /c;\n' + M0 + b'DSEG[7] = { /d, 9, NA };\n', refused(404, 3), '404 goes before 406, 407 and 413')

# One statement is judged to its end before the next is looked at.
point(b'A\nCODE[1] = /c;\n\0', refused(407, 1), 'an early 407 hides a later bad byte')
point(b'A\nCODE[0] = /c;\nDSEG[1] = { /d, 0, RW };\n"', refused(406, 2), 'an early 406 hides an open quote')
point(b'A\nCODE[9] = /c\0;\n', refused(404, 1), 'in the same statement 404 goes first')
point(b'AA\nCODE[0] = /c;\n?', refused(404, 2), '414 comes only after the last statement')

# Paths.
point(code(b'/'), refused(404, 1), '1 byte')
point(code(b'"/"'), refused(404, 1), '1 byte in quotes')
point(code(b'""'), refused(404, 1), 'none')
point(dpath(b'/d'), lists_d(b'/d'), '2 bytes')
point(dpath(b'"/d"'), lists_d(b'/d'), '2 bytes in quotes')
point(dpath(b'/' + b'x' * 62), lists_d(b'/' + b'x' * 62), '63 bytes')
point(dpath(b'"/' + b'x' * 62 + b'"'), lists_d(b'/' + b'x' * 62), '63 bytes in quotes')
point(dpath(b'/' + b'x' * 63), refused(404, 2), '64 bytes')
point(dpath(b'"/' + b'x' * 63 + b'"'), refused(404, 2), '64 bytes in quotes')
point(dpath(b'/' + b'x' * 257), refused(404, 2), '258 bytes: the length must not wrap')
point(dpath(b'//'), lists_d(b'//'), 'slashes are bytes like others')
point(dpath(b'"/ "'), lists_d(b'/ '), 'a space in quotes counts, at the end too')
point(dpath(b'" /d"'), refused(404, 2), 'the first byte is no slash')
point(dpath(b'd'), refused(404, 2), 'the first byte is no slash')
point(dpath(b'"d/"'), refused(404, 2), 'the first byte is no slash')
point(dpath(b'"/a, b; {c} = [d]"'), lists_d(b'/a, b; {c} = [d]'), 'separators of statements inside quotes')
point(dpath(b"/d=[0]'~!"), lists_d(b"/d=[0]'~!"), "decided: '=', brackets and the apostrophe may stand in an unquoted path")
point(dpath(b'/CODE[0]=/x'), lists_d(b'/CODE[0]=/x'), 'words inside a path are no words')
point(dpath(b'"/d\\"'), lists_d(b'/d\\'), 'a backslash is a byte like others')
point(dpath(b'"/d\t"'), refused(404, 2), 'a tab in quotes')
point(dpath(b'"/d\n"'), refused(404, 2), 'a line feed in quotes')
point(dpath(b'/d\t'), lists_d(b'/d'), 'a tab behind an unquoted path is a gap')
for bad in b'/d e', b'/d"', b'/d"e"', b'"/d"e', b'"/d" e', b'"/d""/e"', b'/d{', b'/d}', b'/d;', b"'/d'", b'"/d', b'/d\x7f':
    point(dpath(bad), refused(404, 2), 'not one path')

# Numbers.
point(b'A\nCODE[' + b'0' * 1000 + b'] = /c;\n', ONE, 'a thousand leading zeros')
point(b'A\nCODE[0] = /c;\nDSEG[00] = { /d, 000, RW };\nMSEG[0] = { ' + b'0' * 1000 + b'7KB, 0, RW };\n',
      b'partitions 1 dsegs 1 msegs 1\n0 D 0 RW /d\n0 M 0 RW 7168\n', 'leading zeros everywhere, and none of them shown')
point(b'A\nCODE[4294967295] = /c;\n', refused(407, 1), 'the largest number')
point(b'A\nCODE[4294967296] = /c;\n', refused(404, 1), 'one more: 404 before 407')
point(b'A\nCODE[18446744073709551616] = /c;\n', refused(404, 1), 'the number must not wrap')
point(b'A\nCODE[' + b'0' * 1000 + b'4294967296] = /c;\n', refused(404, 1), 'the zeros do not matter')
point(b'A\nCODE[' + b'9' * 9000 + b'] = /c;\n', refused(404, 1), 'nine thousand digits')
point(b'A\nCODE[0] = /c;\nDSEG[4294967295] = { /d, 0, RW };\n', refused(406, 2), 'the largest index')
point(b'A\nCODE[0] = /c;\nDSEG[4294967296] = { /d, 0, RW };\n', refused(404, 2), 'one more')
point(dseg(b'{ /d, 4294967295, RW }'), refused(407, 2), 'the largest host')
point(dseg(b'{ /d, 4294967296, RW }'), refused(404, 2), 'one more')
point(b'A\nCODE[0KB] = /c;\n', refused(404, 1), 'only a size has a unit')
point(b'A\nCODE[0] = /c;\nDSEG[0KB] = { /d, 0, RW };\n', refused(404, 2), 'only a size has a unit')
point(b'A\nCODE[0] = /c;\nMSEG[0KB] = { 1, 0, RW };\n', refused(404, 2), 'only a size has a unit')
point(b'A\nCODE[0] = /c;\nMSEG[0] = { 1, 0KB, RW };\n', refused(404, 2), 'only a size has a unit')

# Sizes.
point(mseg(b'0'), refused(412, 2), 'size 0')
point(mseg(b'1'), lists_m(b'1'), 'size 1')
point(mseg(b'2KB'), lists_m(b'2048'), 'a unit directly behind')
point(mseg(b'16777216'), lists_m(b'16777216'), 'the largest')
point(mseg(b'16777217'), refused(412, 2), '16MB plus one byte')
point(mseg(b'16384KB'), lists_m(b'16777216'), 'the largest in KB')
point(mseg(b'16385KB'), refused(412, 2), 'above it')
point(mseg(b'16MB'), lists_m(b'16777216'), 'the largest in MB')
point(mseg(b'17MB'), refused(412, 2), 'above it')
point(mseg(b'1GB'), refused(412, 2), 'every number of GB is out of range ..')
point(mseg(b'0GB'), refused(412, 2), '.. and 0 too')
point(mseg(b'4GB'), refused(412, 2), '2^32 bytes: the product must not wrap')
point(mseg(b'4194304KB'), refused(412, 2), '2^32 bytes')
point(mseg(b'4194305KB'), refused(412, 2), '2^32 + 1024 bytes')
point(mseg(b'4097MB'), refused(412, 2), '2^32 + 2^20 bytes')
point(mseg(b'4294967295'), refused(412, 2), 'the largest number')
point(mseg(b'4294967295GB'), refused(412, 2), 'the largest number and unit')
point(mseg(b'4294967296'), refused(404, 2), 'no number')
point(mseg(b'4294967296KB'), refused(404, 2), 'the limit is for the digits: 404 before 412')
for bad in (b'2 KB', b'2\tKB', b'2\nKB', b'2kb', b'2Kb', b'2K', b'2K B', b'2B', b'2TB', b'2KBMB', b'2KB0', b'KB', b'', b'-1', b'1.5KB',
            b'1,024'):
    point(mseg(bad), refused(404, 2), 'not a size')

# 405 and 406.
SIXTEEN_D = b''.join(b'DSEG[%d] = { /d%d, 0, RW };\n' % (i, i) for i in range(16))
SIXTEEN_M = b''.join(b'MSEG[%d] = { %d, 0, RW };\n' % (i, i + 1) for i in range(16))
FULL = b'A\nCODE[0] = /c;\n' + SIXTEEN_D + SIXTEEN_M
point(FULL, b'partitions 1 dsegs 16 msegs 16\n' + b''.join(b'0 D %d RW /d%d\n' % (i, i) for i in range(16))
      + b''.join(b'0 M %d RW %d\n' % (i, i + 1) for i in range(16)), 'sixteen of each')
for index in b'16', b'0', b'15', b'17', b'4294967295':
    point(b'A\nCODE[0] = /c;\n' + SIXTEEN_D + b'DSEG[' + index + b'] = { /x, 0, RW };\n', refused(405, 18),
          'a 17th DSEG, whatever its index: 405 before 406')
    point(FULL + b'MSEG[' + index + b'] = { 1, 0, RW };\n', refused(405, 34), 'a 17th MSEG, whatever its index')
point(FULL + b'MSEG[16] = { 0, 9, NA, NA };\n', refused(405, 34), '405 before 407, 412 and 413')
point(b'A\nCODE[0] = /c;\n' + SIXTEEN_D + b'DSEG[16] = { /d0, 9, NA };\n', refused(405, 18), '405 before 407, 409 and 413')
point(FULL + b'MSEG[16] = { 1, 0 };\n', refused(404, 34), '404 before 405')
point(FULL + b'DSEG[16] = { /x, 0, RW };\n', refused(404, 34), 'a 17th DSEG behind MSEGs is out of order first')
point(b'A\nCODE[0] = /c;\nDSEG[1] = { /d, 0, RW };\n', refused(406, 2), 'indices count from 0')
point(b'A\nCODE[0] = /c;\n' + D0 + D0, refused(406, 3), 'the same index again: 406 before 409')
point(b'A\nCODE[0] = /c;\n' + D0 + b'DSEG[2] = { /x, 0, RW };\n', refused(406, 3), 'one left out')
point(b'A\nCODE[0] = /c;\n' + D0 + b'MSEG[1] = { 1, 0, RW };\n', refused(406, 3), 'each kind counts by itself')
point(b'A\nCODE[0] = /c;\n' + D0 + M0 + b'MSEG[1] = { 2, 0, RO };\n', refused(413, 4), 'the next index is fine, so 413 has its turn')
point(b'A\nCODE[0] = /c;\nDSEG[1] = { /c, 1, NA, NA };\n', refused(406, 2), '406 before 407, 409 and 413')
point(b'A\nCODE[0] = /c;\nDSEG[1] = { /scos/x, 0, RW };\n', refused(406, 2), '406 before 410')
point(b'A\nCODE[0] = /c;\nMSEG[1] = { 0, 1, NA, NA };\n', refused(406, 2), '406 before 407, 412 and 413')

# 407.
point(b'A\nCODE[1] = /c;\n', refused(407, 1), 'partitions number from 0')
point(b'AAAAAAAA\nCODE[8] = /c;\n', refused(407, 1), 'the number is the count')
point(b'AP\nCODE[1] = /c;\n', refused(407, 1), 'CODE for a passive partition')
point(b'AP\nCODE[0] = /c;\nCODE[1] = /c;\nCODE[1] = /c;\n', refused(407, 2), '.. at its first')
point(b'AP\nCODE[0] = /c;\n', b'partitions 2 dsegs 0 msegs 0\n', 'a passive partition needs none')
point(b'AP\nCODE[1] = /scos/x;\n', refused(407, 1), '407 before 410')
point(dseg(b'{ /d, 1, RW }'), refused(407, 2), 'the host is the count')
point(dseg(b'{ /c, 1, NA, NA }'), refused(407, 2), '407 before 409 and 413')
point(dseg(b'{ /scos/x, 1, RW }'), refused(407, 2), '407 before 410')
point(b'A\nCODE[0] = /c;\nMSEG[0] = { 0, 1, NA };\n', refused(407, 2), '407 before 412 and 413')
point(b'AP\nCODE[0] = /c;\nDSEG[0] = { /d, 1, RO, NA };\nMSEG[0] = { 1, 1, RW, NA };\n',
      b'partitions 2 dsegs 1 msegs 1\n0 D 0 RO /d\n0 M 0 RW 1\n', 'a passive host is fine')

# 408.
point(b'A\nCODE[0] = /c;\nCODE[0] = /d;\n', refused(408, 2), 'a second CODE')
point(b'A\nCODE[0] = /c;CODE[00] = /c;', refused(408, 1), 'also with the same path, on the same line, with another spelling')
point(b'A\nCODE[0] = /c;\nCODE[0] = /scos/x;\n', refused(408, 2), '408 before 410')
point(b'AA\nCODE[0] = /c;\nCODE[1] = /c;\nCODE[0] = /c;\n', refused(408, 3), 'a second for 0; one path for two partitions is fine')
point(b'AA\nCODE[0] = /c;\nCODE[1] = /c;\n', b'partitions 2 dsegs 0 msegs 0\n', 'decided: two CODE statements may name one path')

# 409.
point(dpath(b'/c'), refused(409, 2), 'the path of a CODE')
point(dpath(b'"/c"'), refused(409, 2), 'quotes are no part of the path')
point(dpath(b'/C'), lists_d(b'/C'), 'another letter')
point(dpath(b'/cc'), lists_d(b'/cc'), 'longer by one')
point(dpath(b'"/c "'), lists_d(b'/c '), 'longer by a space')
point(b'A\nCODE[0] = /cc;\nDSEG[0] = { /c, 0, RW };\n', lists_d(b'/c'), 'shorter by one')
point(b'AA\nCODE[0] = /a;\nCODE[1] = /b;\nDSEG[0] = { /b, 0, RW, RW };\n', refused(409, 3), "another partition's CODE")
point(b'A\nCODE[0] = /c;\n' + D0 + b'DSEG[1] = { "/d", 0, RW };\n', refused(409, 3), 'the path of a DSEG')
point(b'A\nCODE[0] = /c;\n' + D0 + b'DSEG[1] = { /e, 0, RW };\nDSEG[2] = { /d, 0, RW };\n', refused(409, 4), 'of one further back')
point(b'A\nCODE[0] = /c;\nDSEG[0] = { /' + b'x' * 62 + b', 0, RW };\nDSEG[1] = { /' + b'x' * 61 + b'y, 0, RO };\n',
      b'partitions 1 dsegs 2 msegs 0\n0 D 0 RW /' + b'x' * 62 + b'\n0 D 1 RO /' + b'x' * 61 + b'y\n', 'other only in the 63rd byte')
point(dseg(b'{ /c, 0, NA }'), refused(409, 2), '409 before 413')

# 410.
point(code(b'/scos/'), refused(410, 1), 'the reserved beginning and no more')
point(code(b'/scos/x'), refused(410, 1), 'and more')
point(code(b'/scos'), ONE, 'shorter by the slash')
point(dpath(b'/scos/pw0'), refused(410, 2), 'in a DSEG')
point(dpath(b'"/scos/ x"'), refused(410, 2), 'in quotes')
for path in b'/scos', b'/scosx', b'/Scos/x', b'//scos/x', b'/a/scos/x', b'/scos./':
    point(dpath(path), lists_d(path), 'begins otherwise')
point(b'A\nCODE[0] = /c;\nDSEG[0] = { /scos#/x\n, 0, RW };\n', lists_d(b'/scos'), 'the slash is in a comment')
point(dseg(b'{ /scos/x, 0, NA }'), refused(410, 2), '410 before 413')
point(dseg(b'{ /scos/x, 0, RW, RW }'), refused(410, 2), '410 before 413')

# 412 before 413.
point(b'A\nCODE[0] = /c;\nMSEG[0] = { 0, 0, NA };\n', refused(412, 2), '412 before a rule of 413')
point(b'A\nCODE[0] = /c;\nMSEG[0] = { 0, 0, RW, RW };\n', refused(412, 2), '412 before a wrong number of permissions')

# 413.
AA = b'AA\nCODE[0] = /a;\nCODE[1] = /b;\n'
AP = b'AP\nCODE[0] = /a;\n'
A8 = b'AAAAAAAA\n' + b''.join(b'CODE[%d] = /c;\n' % p for p in range(8))
point(AA + b'DSEG[0] = { /d, 0, RW };\n', refused(413, 3), 'one permission for two partitions')
point(AA + b'DSEG[0] = { /d, 1, RW };\n', refused(413, 3), 'and the host is the one without')
point(AA + b'DSEG[0] = { /d, 0, RW, RO };\n', b'partitions 2 dsegs 1 msegs 0\n0 D 0 RW /d\n1 D 0 RO /d\n', 'two for two')
point(AA + b'DSEG[0] = { /d, 0, RW, RO, NA };\n', refused(413, 3), 'three for two')
point(AP + b'MSEG[0] = { 1, 0, RW };\n', refused(413, 2), 'a passive partition needs a permission too')
point(dseg(b'{ /d, 0' + b', RW' * 257 + b' }'), refused(413, 2), '257 for 1: the count must not wrap')
point(A8 + b'MSEG[0] = { 1, 0' + b', RW' * 264 + b' };\n', refused(413, 9), '264 for 8')
point(b'A\nCODE[0]=/c;DSEG[0]={/d,0' + b',RW' * 5000 + b'};', refused(413, 1), 'thousands')
point(b'A\nCODE[0]=/c;DSEG[0]={/d,0' + b',RW' * 5000 + b',};', refused(404, 1), 'thousands and a trailing comma: 404 first')
point(dseg(b'{ /d, 0, NA }'), refused(413, 2), 'an active host with NA')
point(dseg(b'{ /d, 0, RO }'), b'partitions 1 dsegs 1 msegs 0\n0 D 0 RO /d\n', 'RO is enough for a host')
point(AA + b'DSEG[0] = { /d, 1, RW, NA };\n', refused(413, 3), 'the host is 1')
point(AA + b'DSEG[0] = { /d, 0, RW, NA };\n', b'partitions 2 dsegs 1 msegs 0\n0 D 0 RW /d\n', 'the host is 0; NA gives no line')
point(AP + b'DSEG[0] = { /d, 1, RO, NA };\n', b'partitions 2 dsegs 1 msegs 0\n0 D 0 RO /d\n', 'a passive host with NA is fine')
point(AP + b'DSEG[0] = { /d, 1, NA, NA };\n', b'partitions 2 dsegs 1 msegs 0\n', '.. also where nobody can reach the dseg')
point(AP + b'DSEG[0] = { /d, 0, RO, RW };\n', b'partitions 2 dsegs 1 msegs 0\n0 D 0 RO /d\n', 'RW for a passive one has no effect')
point(AA + b'MSEG[0] = { 1, 0, NA, RW };\n', b'partitions 2 dsegs 0 msegs 1\n1 M 0 RW 1\n', "an mseg's active host may have NA")
point(AA + b'MSEG[0] = { 1, 0, RO, RO };\n', refused(413, 3), 'nobody has RW')
point(AA + b'MSEG[0] = { 1, 0, NA, NA };\n', refused(413, 3), 'nobody has anything')
point(AA + b'MSEG[0] = { 1, 0, RO, RW };\n', b'partitions 2 dsegs 0 msegs 1\n0 M 0 RO 1\n1 M 0 RW 1\n', 'one has RW')
point(AP + b'MSEG[0] = { 1, 0, RO, RW };\n', refused(413, 2), 'only a passive one has RW')
point(AP + b'MSEG[0] = { 1, 1, NA, RW };\n', refused(413, 2), 'also where it is the host')
point(AP + b'MSEG[0] = {\n1,\n1,\nNA,\nRW }\n;\n', refused(413, 2), "the line is the first token's, not the last one's")

# 414.
point(b'AA\nCODE[0] = /c;\n', refused(414, 0), 'an active partition without CODE')
point(b'AA\nCODE[1] = /c;\n', refused(414, 0), 'the first')
point(b'AAAAAAAA\n' + b''.join(b'CODE[%d] = /c;\n' % p for p in range(7)), refused(414, 0), 'the last of eight')
point(AP + b'DSEG[0] = { /d, 0, RW, NA };\n' + b'MSEG[0] = { 1, 0, RW, NA };\n',
      b'partitions 2 dsegs 1 msegs 1\n0 D 0 RW /d\n0 M 0 RW 1\n', 'every active one has its CODE')
point(b'AA\nCODE[0] = /c;\nDSEG[0] = { /d, 0, RW, NA };\n', refused(414, 0), 'after the last statement')
point(b'AA\nCODE[0] = /c;\nDSEG[0] = { /d, 0, NA, NA };\n', refused(413, 2), 'a statement goes before 414')

# The listing.
point(b'PAPA\nCODE[3] = /x; CODE[1] = /y;\nDSEG[0] = { /d0, 0, RO, RO, RW, RW }; DSEG[1] = { /d1, 3, RW, NA, RW, RO };\n'
      b'MSEG[0] = { 1KB, 2, RW, RW, NA, NA }; MSEG[1] = { 5, 0, NA, RO, NA, RW };\n',
      b'partitions 4 dsegs 2 msegs 2\n1 D 0 RO /d0\n1 M 0 RW 1024\n1 M 1 RO 5\n3 D 0 RW /d0\n3 D 1 RO /d1\n3 M 1 RW 5\n',
      'by active partition, then dsegs, then msegs; the permission at place p is for partition p')
LONG = [b'/' + b'x' * 60 + b'%02d' % i for i in range(16)]
point(A8 + b''.join(b'DSEG[%d] = { %s, 7' % (i, LONG[i]) + b', RW' * 8 + b' };\n' for i in range(16))
      + b''.join(b'MSEG[%d] = { 16MB, 7' % i + b', RW' * 8 + b' };\n' for i in range(16)),
      b'partitions 8 dsegs 16 msegs 16\n' + b''.join(
          b''.join(b'%d D %d RW %s\n' % (p, i, LONG[i]) for i in range(16))
          + b''.join(b'%d M %d RW 16777216\n' % (p, i) for i in range(16)) for p in range(8)),
      'the longest listing there can be')
