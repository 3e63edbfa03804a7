"""Bench files at the bounds of their lines, and some for each cause, for second_bench.py."""

HEAD = 'p6bench 1', 'agents 1', 'clocks 60', 'cache 64', 'ahead 1'
SCRIPT = 'agent 0', 'ld 1 40', 'st 1 41 5', 'end'
FIRSTS = ('', '\n', '#\n', 'p6bench 1', 'p6bench 2\n', 'p6bench 01\n', ' p6bench\t1 \r\n', 'p6bench 1 1\n', 'p6bench\n',
          '\0\n', 'p6bench\v1\n', 'p6bench 1\r')
ENDS = '', '\n', '\n\n', '\n# x', '\n#\n \n'

# Lines that stand in the place of the line of their number, divided by semicolons.
SIZES = {
    1: 'agents 0; agents 5; agents 2; agents; agents 1 1; agent 1; agents 01; agents x; agents 4',
    2: 'clocks 0; clocks 1; clocks 200000; clocks 200001; clocks 000000000000000001; clocks 0000000000000000001; clocks 1e3;'
       'clocks 999999999999999999; clocks -1; clocks +1',
    3: 'cache 0; cache 1; cache 3; cache 512; cache 1024; cache 2048; cache',
    4: 'ahead 0; ahead 4; ahead 5; ahead; ahead 1 2',
    5: 'agent 1; agent; agent x; agent 00; agent 0 0; agent 1 1; agent 999; agent 0000000000000000000'}

# Lines that come between the head and the script.
OPTIONS = (
    'profile 1; profile 2; profile 0; profile 3; profile; profile 2 2; bridge 1000 20; bridge 1000 0; bridge 10 20; bridge 20 10;'
    'bridge 1000; bridge; bridge 0 1000000000; bridge 0 1000000020; bridge fffffffe0 20; bridge fffffffe0 40;'
    'bridge 1000000000 20; bridge 1000000001 21; bridge 0 20 20; bridge fffffffe0 1000000001; bridge 0 1000000001; bridge x 20;'
    'bridge 20 x; mem 40 07; mem 40 070; mem 40; mem 40 0g; mem 1000000000 00; mem fffffffff 07; mem fffffffff 0708;'
    'mem fffffffff 07 8; mem fffffffff 0708 9; mem 00000000000000040 07; mem 0000000000000040 Aa; mem 40 07 08; MEM 40 07;'
    'mem 40 07,; mem 40 ' + '0a' * 64 + '; mem 40 ' + '0a' * 65 + '; ahead 1; tx 0 aerr; ld 1 40; end')
GROUPS = (
    'bridge 0 20; profile 2', 'profile 2; profile 2', 'mem 40 07; bridge 0 20', 'profile 2; bridge 0 20; mem 40 07',
    'bridge 0 20; bridge 0 20', 'mem 40 0708; mem 41 09; # mem; mem 40 0a')

# Lines that come into the script, before its first access or behind its last one.
ITEMS = (
    'ld 1 40; ld 2 41; ld 3 40; ld 16 40; ld 1; ld; ld 1 4g; ld 1 40 1; ld 1 1000000000; ld 8 1000000001; ld 8 ffffffff8;'
    'ld 4 ffffffffa; ld 0 40; ld 1 10000000000000000; st 1 40; st 1 40 100; st 1 40 ff; st 2 40 10000; st 4 40 100000000;'
    'st 8 40 ffffffffffffffff; st 8 40 10000000000000000; st 1 40 r+1; st 1 40 r+100; st 1 40 r+ff; st 1 40 r; st 1 40 r+;'
    'st 1 40 R+1; st 1 40 r +1; st 1 40 r+00000000000000001; st 1 40 +1; st 1 40 5 5; idle 1; idle 0; idle 200000; idle 200001;'
    'idle; idle 1 1; lock; unlock; end; agent 1; tx 0 aerr; bnr 0 1; mem 40 07; LD 1 40; lock 1; unlock 1; end 1; end # done')

# What stands in a locked item.
LOCKS = (
    '', ';'.join(['ld 1 40'] * 8), ';'.join(['ld 1 40'] * 9), 'ld 1 0; ld 1 20; ld 1 40; ld 1 60', 'ld 1 40; ld 1 840',
    'ld 1 0; ld 1 20; ld 1 40; ld 1 60; ld 1 80', 'ld 1 0; ld 1 800; ld 1 1000; ld 1 1800; ld 1 2000', 'ld 1 40; st 1 5f 1',
    'idle 1', 'lock', 'end', 'ld 1 40; # x; st 1 40 r+1', 'agent 1', 'tx 0 aerr')

# Lines that come behind the scripts.
HAZARDS = (
    'tx 0 stall 1; tx 0 stall 0; tx 0 stall 256; tx 0 stall; tx 0 stall x; tx 0 stall 2 2; tx 0 trdy 255; tx 0 resp 20;'
    'tx 0 data 3; tx 0 retry; tx 0 retry 1; tx 0 defer 0; tx 0 defer; tx 0 defer 65535; tx 0 defer 65536; tx 0 aerr; tx 0 aerr 1;'
    'tx 0 slow 1; tx 0; tx; tx 199999 aerr; tx 200000 aerr; tx x aerr; tx 200000 slow; bnr 0 9; bnr 5 4; bnr 0; bnr; bnr 0 199999;'
    'bnr 0 200000; bnr 200000 200000; bnr 0 9 9; bnr 9 9; BNR 0 9; agent 1; end')


def divided(lines):
    return [line.strip() for line in lines.split(';')] if lines else []


def text(*lines, end='\n'):
    return '\n'.join(lines) + end


def edge_benches():
    lines = HEAD + SCRIPT
    yield from FIRSTS
    yield from (text(*lines[:count], end=end) for count in range(1, len(lines) + 1) for end in ENDS)
    for place, others in SIZES.items():
        yield from (text(*lines[:place], line, *lines[place + 1:]) for line in divided(others))
    for place, others in ((5, OPTIONS), (6, ITEMS), (8, ITEMS), (9, HAZARDS)):
        yield from (text(*lines[:place], line, *lines[place:]) for line in divided(others))
    yield from (text(*HEAD, *divided(group), *SCRIPT) for group in GROUPS)
    yield from (text(*HEAD, 'agent 0', 'lock', *divided(lock), end, 'end') for lock in LOCKS for end in ('unlock', 'unlock 1'))
    # as many items and as many hazard lines as may stand, and more
    for count in (4095, 4096):
        for rest in ('end', 'idle 1; end', 'idle x; end', 'stop; end', 'lock; ld 1 40; unlock; end', 'lock 1', 'unlock; end'):
            yield text(*HEAD, 'agent 0', *['idle 1'] * count, *divided(rest))
        yield from (text(*lines, *['tx 0 aerr'] * count, line) for line in ('tx 1 aerr', 'tx', 'end', 'bnr', '#'))
    # as long as a file may be, and longer
    yield from (text(*lines, *['# ' + 'x' * 1020] * count) for count in (4095, 4100))
