"""Texts of kernels that are made to break the program, each with its one right answer.

A text with a fault is made by spoiling it at a place, so its code and place are known. In the lists `@` marks the fault; it
begins no token, and is taken out. The answers of texts without a fault are worked out by tools/run_code.py.
"""
import itertools

LONGEST = 65536                        # bytes of a kernel's text

P = b'kernel p { in x; out y; y = x + 1; }'
CHAIN = b'kernel chain { in x; out y; tmp a; tmp b; tmp c; a = x+1; b = x+2; c = a*b; c = c*(x+3); c = c*a; y = c*b; }'
DOT = b'kernel dot { in A[4]; in B[4]; out y; tmp s; s = A[0]*B[0]; for i in 1..4 { s = s + A[i]*B[i]; } y = s; }'
KNOT = b'kernel knot { in x; out y; tmp a; tmp b; tmp c; a = x+1; b = x*2; c = a*b; c = c*a; y = c*b; }'


def spoiled(code, before, rest):
    """A fault with this code after the first bytes."""
    return code, len(before), before + rest


def marked(code, text):
    before, rest = text.split('@')
    return spoiled(code, before.encode(), rest.encode())


def within(code, text):
    """A marked text inside the braces of a kernel."""
    return marked(code, 'kernel a { ' + text + '}')


# ---- tokens

NO_TOKENS = [bytes([b]) for b in [*range(9), 11, 12, *range(14, 32), 127]] + [bytes([b]) for b in b'!"#$%\'./:?@\\`~']
BROKEN = [bytes.fromhex(word) for word in (
    '80 bf c080 c1bf c3 c328 e282 e228a1 e08080 e09f eda080 edbfbf f0288cbc f0808080 f08fbfbf f4908080 f5808080 f888808080 fe ff').split()]
NO_NAMES = [
    '\u00a0', '\ufeff', '\u2028', '\u3000', '\u200b', '\u00b2', '\u0301', '\u0663', '\U0001f600', '\u20ac', '\u2212', '\uff1b']


def byte_faults():
    """Bytes and characters that begin no token, and bytes that begin no character."""
    for piece in NO_TOKENS:
        yield spoiled('K1', b'kernel a { ', piece + b' }')
        yield spoiled('K1', b'kernel a', piece + b' { }')
    for piece in BROKEN:
        for before, rest in ((b'kernel a { ', b' }'), (b'kernel a', b' { }'), (b'kernel a { }', b''), (b'kernel a { } // ', b'\n'),
                             (b'// ', b'')):
            yield spoiled('K1', before, piece + rest)
    for piece in NO_NAMES:
        yield spoiled('K1', b'kernel a { in ', (piece + '; }').encode())
    yield spoiled('K1', b'', '\ufeffkernel a { }'.encode())
    yield spoiled('K1', b'kernel a { } ', b'/ comment')
    yield spoiled('K1', b'kernel a { y = 1 ', b'. 2; }')
    yield spoiled('K1', b'kernel a { for i in 0..', b'.4 { } }')
    yield spoiled('K1', b'kernel a { if 0 =', b'! 0 { } }')
    yield spoiled('K1', b'kernel a { in b; ? }'[:17], b'? ' + b'9' * 40 + b' }')


def big_faults():
    for number in ('9223372036854775808', '18446744073709551616', '9' * 20, '1' + '0' * 300, '0' * 500 + '9223372036854775808',
                   '9' * 60000):
        yield within('K2', f'out y; y = @{number}; ')
        yield within('K2', f'in A[@{number}]; ')
    for name in ('a' * 65, '_' * 65, 'a' * 60000, '\u00e9' * 33, 'a' + '\u00e9' * 32, '\U00010400' * 17, 'kernel' * 11):
        yield marked('K2', f'kernel @{name} {{ }}')
        yield within('K2', f'in x; out y; y = x + @{name}; ')
    yield within('K2', f'in @{"b" * 65}; in {"c" * 65}; $ ')


# ---- syntax

SAMPLE = ('kernel k { in A [ 4 ] [ 2 ] ; out y ; tmp t ; t = min ( A [ 0 ] [ 1 ] , - 3 ) ; for i in 0 .. 4 by 2 { t = ( t + A [ i ] [ 0 ] '
          '* i ) & 7 | 1 ^ 2 - 5 ; } if 1 <= 2 { y = sel ( t , 1 , t ) ; } else { y = mad ( t , t , 1 ) ; } }').split(' ')

NO_KERNELS = [
    'kernel a { } @;', 'kernel a { } @}', 'kernel a { } @kernel b { }', 'kernel a { in A[1][2]@[3]; }', 'kernel a { in A[@]; }',
    'kernel a { in A[@-1]; }', 'kernel a { in A[@x]; }', 'kernel a { in x; out y; y = x; @in z; }',
    'kernel a { for i in 0..1 { } @out y; y = 1; }', 'kernel a { @1 = 2; }', 'kernel a { out y; y @== 1; }', 'kernel a { out y; y = @; }',
    'kernel a { out y; y = 1 @2; }', 'kernel a { out y; y = x[1][2]@[3]; }', 'kernel a { out y; y = (1@; }', 'kernel a { out y; y = 1@); }',
    'kernel a { out y; y = min(1@); }', 'kernel a { out y; y = min(1, 2@, 3); }', 'kernel a { out y; y = sel(1, 2@); }',
    'kernel a { out y; y = mad@; }', 'kernel a { out y; y = @+ 1; }', 'kernel a { out y; y = 1 + @+ 1; }',
    'kernel a { out y; y = 1 ^ @^ 2; }', 'kernel a { out y; y = A[@min(1, 2)]; }', 'kernel a { out y; y = A[1 @& 2]; }',
    'kernel a { out y; y = A[@]; }', 'kernel a { for @1 in 0..4 { } }', 'kernel a { for i @= 0..4 { } }',
    'kernel a { for i in 0 @, 4 { } }', 'kernel a { for i in 0..4 by @{ } }', 'kernel a { for i in 0..A@[1] { } }',
    'kernel a { for i in @..1 { } }', 'kernel a { for @in in 0..1 { } }', 'kernel a { if 1 @{ } }', 'kernel a { if 1 @= 1 { } }',
    'kernel a { if 1 < 2 @< 3 { } }', 'kernel a { if 1 < @== 2 { } }', 'kernel a { if 1 <= @= 2 { } }',
    'kernel a { if 1 < 2 { } else @if 1 < 2 { } }', 'kernel a { @else { } }', 'kernel a { @{ } }', 'kernel @in { }', 'kernel @1 { }',
    'kernel a @( )', '@Kernel a { }', '@kernels a { }', 'kernel a { in x@, y; }', 'kernel a { in @else; }', 'kernel a { tmp x @= 1; }',
    'kernel a { out y; y = 1@', 'kernel a { // }@', 'kernel a { \r\n\t@', '@', ' \t\r\n@', '// only a comment@', '@;', '@{ }', '@1', '@a',
    'kernel@', 'kernel a@', 'kernel a {@', 'kernel a { in 1@'.replace('1@', '@1')]


def syntax_faults():
    for text in NO_KERNELS:
        yield marked('K3', text)
    for count in range(len(SAMPLE)):
        yield marked('K3', ' '.join(SAMPLE[:count]) + '@')
        before = ''.join(token + ' ' for token in SAMPLE[:count])
        yield marked('K3', before + '@' + ' '.join(['kernel' if count else '}'] + SAMPLE[count + 1:]))


def deep_faults():
    """Parts that are nested too deep: the token that opens the 33rd."""
    for opener in ('(', '- ', 'min(', 'sel(', 'mad(1, 2, ', 'max(1, '):
        yield within('K13', 'out y; y = ' + opener * 32 + '@' + opener * 5)
    yield within('K13', 'out y; y = ' + '(' * 32 + '@' + '(' * 60000)
    yield within('K13', 'out y; y = ' + '-' * 32 + '@' + '-' * 60000)
    yield within('K13', 'out y; y = ' + '(-' * 16 + '@' + '(-' * 16)
    yield within('K13', ''.join(f'for i{k} in 0..1 {{ ' for k in range(32)) + '@for j in 0..1 { ')
    yield within('K13', 'if 0 == 0 { ' * 32 + '@if 0 == 0 { ')
    yield within('K13', 'if 0 == 0 { } else { ' * 32 + '@if if if ')
    yield within('K13', 'if 0 == 0 { ' * 32 + 'y = @(')
    yield within('K13', 'out A[1]; A[' + '(' * 32 + '@(')
    yield within('K13', 'for i in ' + '(' * 31 + '@(')
    yield within('K13', 'for i in 0..4 by ' + '-' * 31 + '@-')
    yield within('K13', 'if ' + '(' * 31 + '@(')
    yield within('K3', 'out y; y = ' + '(' * 32 + '@)')
    yield marked('K3', 'kernel a { out y; y = ' + '(' * 32 + '@')


# ---- names and runs: marked texts inside the braces of a kernel

NAMES = [
    ('K16', 'in A[@0]; '), ('K16', 'in A[@65]; '), ('K16', 'in A[1][@0]; '), ('K16', 'out A[64][@9223372036854775807]; '),
    ('K16', 'tmp A[@00000]; '), ('K16', 'in A[@0]; in A; '), ('K16', 'in A[@65][65]; '), ('K16', 'in A[@65]; ' + 'in B[65]; ' * 3000),
    ('K5', 'in x; in @x; '), ('K5', 'in x; tmp @x[0]; '), ('K5', 'in i; for @i in 0..1 { } '),
    ('K5', 'for i in 0..1 { for @i in 0..1 { } } '), ('K5', 'in x; in @x; in x; '), ('K4', 'out y; y = @z; '), ('K4', '@y = 1; '),
    ('K4', 'for i in 0..@i { } '), ('K4', 'for i in 0..4 by @i { } '), ('K4', 'in x; if @x < 1 { } '),
    ('K4', 'in A[2]; in x; out y; y = A[@x]; '), ('K4', 'out y; y = @y2; '), ('K4', 'out Y; @y = 1; '),
    ('K4', 'out caf\u00e9; @cafe\u0301 = 1; '), ('K4', '@a = 1; '), ('K4', 'out y; y = @a; y = b; '),
    ('K4', 'out y; for i in 0..1 { } y = @i; '), ('K4', 'out y; y = 1; for i in 0..1 { y = @j; } x = 1; '), ('K9', 'in x; @x = 1; '),
    ('K9', 'for i in 0..1 { @i = 1; } '), ('K9', 'in x; @x[0] = 1; '), ('K6', 'in x; out y; y = @x[0]; '),
    ('K6', 'in A[2]; out y; y = @A; '), ('K6', 'in A[2]; out y; y = @A[0][0]; '), ('K6', 'in A[2][2]; out y; y = @A[0]; '),
    ('K6', 'out y; for i in 0..1 { y = @i[0]; } '), ('K6', 'out y; @y[0] = 1; ')]

WALKS = [
    ('K12', '@for i in 0..65534 { } '), ('K12', 'out y; for i in 0..65536 { @y = 1; } '), ('K12', 'for i in 0..65531 { } @if 0 == 0 { } '),
    ('K12', '@for i in -1000000..1000000 { } '), ('K14', 'out y; for i in 0..@1000001 { } '), ('K14', 'for i in @-(-1000001)..0 { } '),
    ('K14', 'for i in 0..@1000 * 1000 * 1000 - 1000000000 { } '), ('K14', 'in A[4]; out y; y = A[@1000000 * 2 - 2000000]; '),
    ('K14', 'if 0 < @1000000 + 1 { } '), ('K14', 'if @9223372036854775807 + 9223372036854775807 == 0 { } '),
    ('K14', 'in A[4]; out y; y = A[@9223372036854775807 * 9223372036854775807]; '), ('K14', 'for i in 0..1 by @-1000001 { } '),
    ('K14', 'in A[2]; out y; y = A[@0 - 9223372036854775807]; '), ('K14', 'in A[2][2]; out y; y = A[5][@1000001]; '),
    ('K14', 'for i in 0..3 { if i == 2 { if 0 < @500000 * (i + 1) { } } } '), ('K17', 'for i in 0..3 by @0 { } '),
    ('K17', 'for i in 3..0 by @1 - 1 { } '), ('K17', 'for i in 0..3 by @-1 { } '), ('K17', 'for i in 0..3 { for j in 0..0 by @i { } } '),
    ('K7', 'in A[3]; out y; y = @A[3]; '), ('K7', 'out y[2]; @y[2] = 1; '), ('K7', 'in A[3]; out y; y = @A[-1]; '),
    ('K7', 'in A[3]; out y; y = @A[0 - 1]; '), ('K7', 'in A[3][2]; out y; y = @A[0][2]; '),
    ('K7', 'in A[3]; out y; tmp t; y = t; y = @A[3]; '), ('K7', 'in A[3]; out y; for i in 0..4 { y = @A[i]; } '),
    ('K7', 'in A[2]; out y[2]; y[0] = @A[2] + A[3]; '), ('K7', 'in A[2]; out y[2]; @y[2] = A[1]; '),
    ('K7', 'in A[2]; out y[2]; y[2] = @A[2]; '), ('K7', 'in A[64][64]; out y; y = @A[64][0]; '), ('K7', 'tmp A[64][64]; @A[63][64] = 1; ')]

VALUES = [
    ('K11', 'in A[64][4]; in @x; out y; y = x; '), ('K11', 'in A[64][4]; out y; y = A[0][0] @+ 1; '),
    ('K11', 'in A[64][4]; out @y; y = 1; '), ('K11', 'in @A[64][64]; '), ('K11', 'in x; tmp t; t = x; for i in 0..256 { t = t @+ 1; } '),
    ('K11', 'in A[64][4]; out y; y = @min(A[0][0], 1); '), ('K11', 'in A[64][4]; out y; y = @-A[0][0]; '),
    ('K11', 'out @A[64][5]; for i in 0..64 { for j in 0..5 { A[i][j] = 1; } } '), ('K8', 'out y; tmp t; y = @t; '),
    ('K8', 'in x; out y; tmp t; y = sel(1, x, @t); '), ('K8', 'out y; y = @y; '), ('K8', 'out y; y = 1 + @y * 2; '),
    ('K8', 'tmp A[2]; out y; A[0] = 1; y = A[0] + @A[1]; '), ('K8', 'tmp t; out y; y = min(1, @t) + t; '), ('K10', 'out @y; '),
    ('K10', 'in x; out @y[3]; y[0] = x; y[2] = x; '), ('K10', 'out @A[64][64]; '), ('K10', 'out @y; for i in 3..3 { y = 1; } '),
    ('K10', 'out @y; if 1 == 2 { y = 1; } ')]


# ---- long texts

FIRSTS = {'K1': b'\0!"#~?\x80\xff\xc3', 'K2': b'9a_', 'K3': b'{}[](),;+-*&|^>0.=<'}


def long_faults():
    """Texts of 65,536 and 65,537 bytes of one sign, and others at the limit."""
    for code, signs in FIRSTS.items():
        for sign in signs:
            yield code, 0, bytes([sign]) * LONGEST
            yield 'K15', LONGEST, bytes([sign]) * (LONGEST + 1)
    for sign in b' \n\t\r/':
        yield 'K3', LONGEST, bytes([sign]) * LONGEST
        yield 'K15', LONGEST, bytes([sign]) * (LONGEST + 1)
    yield 'K2', 0, '\u00e9'.encode() * (LONGEST // 2)
    yield 'K1', LONGEST - 1, b'//' + b'x' * (LONGEST - 3) + b'\xc3'
    yield 'K1', LONGEST - 2, b'//' + b'x' * (LONGEST - 4) + b'\xe2\x82'
    yield 'K15', LONGEST, b'//' + b'x' * (LONGEST - 3) + '\u00e9'.encode()
    yield 'K15', LONGEST, b'kernel a { }' + b' ' * (LONGEST - 11)
    yield 'K15', LONGEST, b'\xff' * 5_000_000
    yield 'K3', LONGEST, (b'kernel a { ' + b'in A; ' * 10900).ljust(LONGEST)
    yield 'K5', 20, (b'kernel a { in A; in A; ' + b'in A; ' * 10900).ljust(LONGEST - 1) + b'}'


def faulty_kernels():
    """All kernels with a fault, each with its code, its place and its text."""
    listed = (within(code, text) for code, text in NAMES + WALKS + VALUES)
    return itertools.chain(byte_faults(), big_faults(), syntax_faults(), deep_faults(), listed, long_faults())


# ---- kernels without a fault

SOUND_NAMES = [
    'in1', 'kernel1', '_', '__', 'a' * 64, '\u00e9' * 32, '\U00010400' * 16, 'a\u0301', 'x\u0663', '\u03b1\u03b2', 'For', 'KERNEL',
    'elseif', 'bye']

SOUND_BODIES = [
    'y = ' + '(' * 32 + 'x' + ')' * 32 + ';', 'y = ' + '-' * 32 + 'x;', 'y = ' + 'min(' * 32 + 'x' + ', 1)' * 32 + ';',
    'y = 9223372036854775807 + 1;', 'y = -9223372036854775807 - 1;', 'y = -(-9223372036854775807 - 1);',
    'y = 9223372036854775807 * 9223372036854775807;', 'y = x; y = y; y = y + y;', 'y = 3 & 5 | 6 ^ x - 1 * 2;',
    'y = sel(0, 1, 2) + sel(x, x, x) + mad(x, 2, 3) + max(x, -x);', 'y = 1 - 2 - 3 - x - 4;',
    'if 1000000 > -1000000 { y = x; } else { y = 2; }', 'y = x; for i in -1000000..-1000000 { y = 1; }',
    'y = 0; for i in 0..5 by 1000000 { y = y + i + x; }', 'y = 0; for i in 10..0 { y = x + i; }',
    'y = 0; for i in 0..9 by 4 { for j in i..i + 2 { if i != j { y = y + j * x; } } }', 'y = x; for i in 0..65528 { }',
    'y = x; if 1 == 1 { } else { y = 2; } if 1 != 1 { y = 3; } if 2 <= 1 { y = 4; } if 1 >= 2 { y = 5; } if -1 > 0 { y = 6; }']


def sound_kernels():
    yield from (P, CHAIN, DOT, KNOT, b'kernel e { }', b'kernel e{}', b'kernel\te\r\n{\r\n}\r\n',
                b'//a\n//b\rc\nkernel e { } // no end of line')
    yield from (b'kernel p{in x;out y;y=x+1;}', P.replace(b' ', b'\r\n'), P.replace(b' ', b' // \xe2\x82\xac comment\n'),
                b'kernel e { }'.ljust(LONGEST))
    yield b'kernel e { } //'.ljust(LONGEST, b'/')
    for name in SOUND_NAMES:
        yield f'kernel {name} {{ in {name}; out {"y" if name != "y" else "z"}; y = {name} + 1; }}'.encode()
    for number in (0, 9223372036854775807, 1000001):
        yield f'kernel n {{ in x; out y; y = x * {number} + 000{number}; }}'.encode()
    for text in SOUND_BODIES:
        yield f'kernel s {{ in x; out y; {text} }}'.encode()
    yield b'kernel f { in A[64][4]; out y; y = A[63][3]; }'
    yield b'kernel f { out A[64][4]; for i in 0..64 { for j in 0..4 { A[i][j] = i * 4 + j - 5; } } }'
    yield b'kernel f { in x; tmp t; t = x; for i in 0..255 { t = t * t; } }'
    yield ('kernel f { ' + ''.join(f'tmp t{k}; ' for k in range(5000)) + '}').encode()
    yield ('kernel f { out y; ' + 'y = 1; ' * 9000 + '}').encode()
    yield ('kernel f { ' + ''.join(f'for i{k} in 0..1 {{ ' for k in range(32)) + '} ' * 32 + '}').encode()


def written_kernels():
    """Kernels whose graph is told by hand."""
    constant = 'vertices 1\ninputs 0\ndegree 0\n0 set #%d\nout y v0\n'
    yield ('kernel f { out y; y = 1' + ' + 1' * 16000 + '; }').encode(), (constant % 16001).encode()
    yield ('kernel f { out y; y = 2' + ' * 2' * 16000 + '; }').encode(), (constant % 0).encode()
    yield ('kernel f { out y; y = 0' + ' - 1' * 15000 + '; }').encode(), (constant % -15000).encode()
