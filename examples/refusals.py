"""Texts that are refused: the line at which they are, and the reason that goes to standard error.

A group has the command that reads the texts, how often a text has what follows its beginning, the beginning, and the texts, a line
each: what follows, in which `~` is an LF, then a bar, and the reason, or `line N` alone where any reason will do. A text is written in
UTF-8; a byte that belongs to none, as 0xff, is the character U+DCFF here.
"""
from typing import NamedTuple

from limits import MOST_BYTES, MOST_DATA, MOST_EVENTS, MOST_LINES


class Group(NamedTuple):
    command: str
    count: int
    beginning: str
    texts: str


GROUPS = {
    "a-script-without-its-first-line": Group(
        "replay",
        1,
        "",
        """|line 1: expected 'xti-script 1' or 'xti-script 2', found the end of the input
~|line 1: expected 'xti-script 1' or 'xti-script 2', found ''
xti-script 3~|line 1: expected 'xti-script 1' or 'xti-script 2', found 'xti-script 3'
xti-script 1\r~|line 1: expected 'xti-script 1' or 'xti-script 2', found 'xti-script 1\\x0d'
0 open a ticlts~|line 1: expected 'xti-script 1' or 'xti-script 2', found '0 open a ticlts'
""",
    ),
    "a-script-with-a-wrong-call": Group(
        "replay",
        1,
        "xti-script 1\n0 open a ticots\n0 bind a qlen=1\n1 open b ticots\n1 listen a q\n",
        """x look a~|line 6: expected a worker from 0 to 32, found 'x'
33 look a~|line 6: expected a worker from 0 to 32, found '33'
 1 look a~|line 6: expected a worker from 0 to 32, found a space too many
1~|line 6: expected a call, found the end of the line
1  look a~|line 6: expected a call, found a space too many
1 frob a~|line 6: unknown call 'frob'
1 t_look a~|line 6: unknown call 't_look', expected look
1 sndreldata a udata=t:bye~|line 6: unknown call 'sndreldata', which version 2 has
1 rcvreldata a~|line 6: unknown call 'rcvreldata', which version 2 has
# \xe9~|line 6: a comment has a byte that is not ASCII
1 bind a adr=t:x~|line 6: bind: unknown field 'adr', expected addr, qlen or amax
1 bind a qlen=1 adr=t:x~|line 6: bind: unknown field 'adr', expected amax
1 bind a amax=1 x=2~|line 6: bind: unknown field 'x', expected the end of the line
1 bind a qlen=1 addr=t:x~|line 6: bind: misplaced field 'addr', expected amax
1 bind a t:x~|line 6: bind: expected addr, qlen or amax, found 't:x'
1 bind a ~|line 6: bind: expected addr, qlen or amax, found a space too many
1 bind a =~|line 6: bind: expected addr, qlen or amax, found '='
1 close a b~|line 6: close: expected the end of the line, found 'b'
1 snd a~|line 6: snd: field 'data' is missing
1 snd a flags=1~|line 6: snd: misplaced field 'flags', expected data
1 snd a data=t:hi there~|line 6: snd: expected flags, found 'there'
1 sndudata a dat=t:x~|line 6: sndudata: unknown field 'dat', expected addr, opt or data
1 snd a data=hi~|line 6: snd: data: expected bytes after t:, x: or f:, found 'hi'
1 snd a data=t:a/b~|line 6: snd: data: expected one or more of letters, digits, _, . and - after t:, found 't:a/b'
1 snd a data=x:6~|line 6: snd: data: expected pairs of the digits 0 to 9 and a to f after x:, found 'x:6'
1 snd a data=f:65537~|line 6: snd: data: expected a number up to 65536 after f:, found 'f:65537'
1 snd a data=t:x flags=01~|line 6: snd: flags: expected a number of 32 bits without sign and leading zeros, found '01'
1 sndv a parts=t:x,y~|line 6: sndv: parts: expected bytes after t:, x: or f:, found 't:x,y'
1 rcvv a sizes=1,1,1,1,1,1,1,1,1,1,1,1,1,1,1,1,1,1,1,1,1,1,1,1,1,1,1,1,1,1,1,1,1~|line 6: rcvv: sizes: expected at most 32 of them, found '1,1,1,1,1,1,1,1,1,1,1,1,1,1,1,1,1,1,1,1,1,1,1,1,1,1,1,1,1,1,'..
1 optmgmt a check opt=o:1~|line 6: optmgmt: opt: expected options LEVEL/NAME=VALUE or LEVEL/NAME after o:, found 'o:1'
1 optmgmt a check opt=1~|line 6: optmgmt: opt: expected bytes after t:, x: or f:, or options after o:, found '1'
1 optmgmt a see~|line 6: optmgmt: expected negotiate, check, default, current or a number, found 'see'
1 open a ticots~|line 6: open: expected a name that no line above defines, found 'a'
1 open A ticots~|line 6: open: expected a name, which is a letter a to z and at most 15 of a to z, 0 to 9 and _, found 'A'
1 open c /dev/ticots~|line 6: open: expected ticots, ticotsord, ticlts or other, found '/dev/ticots'
1 open c~|line 6: open: expected ticots, ticotsord, ticlts or other, found the end of the line
1 open c ticots wait~|line 6: open: expected block or nonblock, found 'wait'
1 mode a~|line 6: mode: expected block or nonblock, found the end of the line
1 look c~|line 6: look: expected an endpoint that this worker or worker 0 opens above, found 'c'
2 look b~|line 6: look: expected an endpoint that this worker or worker 0 opens above, found 'b'
1 look~|line 6: look: expected an endpoint that this worker or worker 0 opens above, found the end of the line
1 listen a q~|line 6: listen: expected a name that no line above defines, found 'q'
1 accept a a r~|line 6: accept: expected a request for which this worker or worker 0 listens above, found 'r'
2 accept a a q~|line 6: accept: expected a request for which this worker or worker 0 listens above, found 'q'
1 snddis a x~|line 6: snddis: expected - or a request for which this worker or worker 0 listens above, found 'x'
""",
    ),
    "a-script-with-a-wrong-head": Group(
        "replay",
        1,
        "xti-script 1\n+++\n",
        """|line 2: head: there is no second line +++
[ticots]~|line 2: head: there is no second line +++
# \xe9~+++~|line 2: head: a byte is not ASCII
[ticots]~tsdu =~+++~|line 2: head: no TOML at line 4: invalid value, expected a string, number, boolean, date-time, array or inline table
[ticot]~+++~|line 2: head: unknown table 'ticot', expected ticots, ticotsord or ticlts
ticots = 1~+++~|line 2: head: ticots: expected a table
[ticots]~size = 1~+++~|line 2: head: ticots: unknown key 'size', expected tsdu, sendzero, same_addr, sndbuf or rcvbuf
[ticotsord]~reldata = true~+++~|line 2: head: ticotsord: unknown key 'reldata', expected tsdu, sendzero, same_addr, sndbuf or rcvbuf
[ticlts]~same_addr = false~+++~|line 2: head: ticlts: unknown key 'same_addr', expected tsdu, sendzero, sndbuf or rcvbuf
[ticots]~tsdu = 0~+++~|line 2: head: ticots: tsdu: expected a number from 1 to 65536, or -1
[ticotsord]~tsdu = -2~+++~|line 2: head: ticotsord: tsdu: expected a number from 0 to 65536, or -1
[ticlts]~tsdu = -1~+++~|line 2: head: ticlts: tsdu: expected a number from 1 to 65536
[ticlts]~rcvbuf = 65537~+++~|line 2: head: ticlts: rcvbuf: expected a number from 1 to 65536
[ticots]~tsdu = true~+++~|line 2: head: ticots: tsdu: expected a number
[ticots]~sendzero = 1~+++~|line 2: head: ticots: sendzero: expected true or false
[ticotsord]~sendzero = true~+++~|line 2: head: ticotsord: sendzero: expected no empty messages, as tsdu is 0
""",
    ),
    "a-script-with-a-wrong-line-after-its-head": Group(
        "replay",
        1,
        "xti-script 1\n+++\n[ticots]\n+++\n# x\n\n0 open a ticots\n",
        """+++~|line 8: expected a worker from 0 to 32, found '+++'
0 frob a|line 8: unknown call 'frob'
0 look b|line 8: look: expected an endpoint that this worker or worker 0 opens above, found 'b'
""",
    ),
    "a-head-of-the-second-version": Group(
        "replay",
        1,
        "xti-script 2\n+++\n",
        """[ticots]~reldata = true~+++~|line 2: head: ticots: unknown key 'reldata', expected tsdu, sendzero, same_addr, sndbuf or rcvbuf
[ticotsord]~size = 1~+++~|line 2: head: ticotsord: unknown key 'size', expected tsdu, sendzero, same_addr, sndbuf, rcvbuf or reldata
[ticotsord]~reldata = 1~+++~|line 2: head: ticotsord: reldata: expected true or false
[ticotsord]~reldata = true~sendzero = true~+++~|line 2: head: ticotsord: sendzero: expected no empty messages, as tsdu is 0
""",
    ),
    "a-call-of-the-second-version": Group(
        "replay",
        1,
        "xti-script 2\n+++\n[ticotsord]\nreldata = true\n+++\n0 open a ticotsord\n",
        """0 sndreldata~|line 7: sndreldata: expected an endpoint that this worker or worker 0 opens above, found the end of the line
0 sndreldata a data=t:bye~|line 7: sndreldata: unknown field 'data', expected udata
0 sndreldata a udata=bye~|line 7: sndreldata: udata: expected bytes after t:, x: or f:, found 'bye'
0 rcvreldata a max=1~|line 7: rcvreldata: unknown field 'max', expected umax
0 t_sndreldata a~|line 7: unknown call 't_sndreldata', expected sndreldata
0 sndreldata a~0 rcvreldata a~0 frob a~|line 9: unknown call 'frob'
""",
    ),
    "a-link-script-without-its-first-line": Group(
        "link",
        1,
        "",
        """|line 1: expected 'xti-link 1', found the end of the input
xti-script 1~|line 1: expected 'xti-link 1', found 'xti-script 1'
xti-link 1|line 1: the last line has no LF at its end
""",
    ),
    "a-link-script-with-a-wrong-event": Group(
        "link",
        1,
        "xti-link 1\noffer t:a\n",
        """timeout|line 3: the last line has no LF at its end
~|line 3: expected offer, timeout, data or ack, found a space too many
send t:a~|line 3: expected offer, timeout, data or ack, found 'send'
timeout 1~|line 3: timeout: expected the end of the line, found '1'
offer~|line 3: offer: expected bytes, found the end of the line
offer a~|line 3: offer: expected bytes after t:, x: or f:, found 'a'
offer f:513~|line 3: offer: expected at most 512 bytes, found 'f:513'
offer t:a t:b~|line 3: offer: expected the end of the line, found 't:b'
data~|line 3: data: expected a number, found the end of the line
data x~|line 3: data: expected a number of 32 bits without sign and leading zeros, found 'x'
ack 1 2~|line 3: ack: expected the end of the line, found '2'
""",
    ),
    "a-journal-without-its-providers": Group(
        "check",
        1,
        "",
        """|line 1: expected 'xti-journal 1' or 'xti-journal 2', found the end of the input
xti-journal 1|line 1: the last line has no LF at its end
xti-script 1~|line 1: expected 'xti-journal 1' or 'xti-journal 2', found 'xti-script 1'
xti-journal 1~|line 2: expected a provider's line, found the end of the input
xti-journal 1~provider|line 2: the last line has no LF at its end
xti-journal 1~1 0 open~|line 2: expected provider, found '1'
xti-journal 1~provider ticlts~|line 2: provider: expected ticots, found 'ticlts'
xti-journal 1~provider ticots sendzero=1~|line 2: ticots: expected tsdu, found 'sendzero=1'
xti-journal 1~provider ticots tsdu=x~|line 2: ticots: tsdu: expected a number of 32 bits, -1 or -2, found 'x'
xti-journal 1~provider ticots tsdu=1 sendzero=true~|line 2: ticots: sendzero: expected 0 or 1, found 'true'
xti-journal 1~provider ticots tsdu=1 sendzero=1 same_addr=0 sndbuf=1~|line 2: ticots: expected rcvbuf, found the end of the line
xti-journal 1~provider ticots tsdu=1 sendzero=1 same_addr=0 sndbuf=1 rcvbuf=1 x~|line 2: ticots: expected the end of the line, found 'x'
xti-journal 1~provider ticots tsdu=0 sendzero=1 same_addr=0 sndbuf=1 rcvbuf=1~|line 2: ticots: tsdu: expected a number from 1 to 65536, or -1
xti-journal 1~provider ticots tsdu=1 sendzero=1 same_addr=0 sndbuf=0 rcvbuf=1~|line 2: ticots: sndbuf: expected a number from 1 to 65536
""",
    ),
    "a-journal-with-a-wrong-second-provider": Group(
        "check",
        1,
        "xti-journal 1\nprovider ticots tsdu=65536 sendzero=1 same_addr=0 sndbuf=16384 rcvbuf=16384\n",
        """provider ticotsord tsdu=0 sendzero=1 same_addr=0 sndbuf=1 rcvbuf=1~|line 3: ticotsord: sendzero: expected no empty messages, as tsdu is 0
""",
    ),
    "a-journal-with-a-wrong-third-provider": Group(
        "check",
        1,
        "xti-journal 1\nprovider ticots tsdu=65536 sendzero=1 same_addr=0 sndbuf=16384 rcvbuf=16384\nprovider ticotsord tsdu=0 sendzero=0 same_addr=0 sndbuf=16384 rcvbuf=16384\n",
        """provider ticlts tsdu=1 sendzero=1 same_addr=1 sndbuf=1 rcvbuf=1~|line 4: ticlts: same_addr: expected 0
""",
    ),
    "a-journal-with-a-wrong-release": Group(
        "check",
        1,
        "xti-journal 2\nprovider ticots tsdu=65536 sendzero=1 same_addr=0 sndbuf=16384 rcvbuf=16384",
        """ reldata=0~|line 2: ticots: expected the end of the line, found 'reldata=0'
~provider ticotsord tsdu=0 sendzero=0 same_addr=0 sndbuf=1 rcvbuf=1~|line 3: ticotsord: expected reldata, found the end of the line
~provider ticotsord tsdu=0 sendzero=0 same_addr=0 sndbuf=1 rcvbuf=1 reldata=2~|line 3: ticotsord: reldata: expected 0 or 1, found '2'
~provider ticotsord tsdu=0 sendzero=0 same_addr=0 sndbuf=1 rcvbuf=1 reldata=1 x~|line 3: ticotsord: expected the end of the line, found 'x'
""",
    ),
    "a-journal-of-the-second-version": Group(
        "check",
        1,
        "xti-journal 2\nprovider ticots tsdu=65536 sendzero=1 same_addr=0 sndbuf=16384 rcvbuf=16384\nprovider ticotsord tsdu=0 sendzero=0 same_addr=0 sndbuf=16384 rcvbuf=16384 reldata=1\n",
        """provider ticlts tsdu=1 sendzero=1 same_addr=0 sndbuf=1 rcvbuf=1 reldata=0~|line 4: ticlts: expected the end of the line, found 'reldata=0'
provider ticlts tsdu=1 sendzero=1 same_addr=0 sndbuf=1 rcvbuf=1~1 0 sndreldata 0~|line 5: sndreldata: field 'udata' is missing
provider ticlts tsdu=1 sendzero=1 same_addr=0 sndbuf=1 rcvbuf=1~1 0 rcvreldata 0 umax=64 => ok T_IDLE~|line 5: rcvreldata: answer: expected bytes after x:, found 'T_IDLE'
provider ticlts tsdu=1 sendzero=1 same_addr=0 sndbuf=1 rcvbuf=1~stall 0 sndreldata 0 udata=x: x~|line 5: stall: sndreldata: expected the end of the line, found 'x'
""",
    ),
    "a-journal-with-a-wrong-entry": Group(
        "check",
        1,
        "xti-journal 1\nprovider ticots tsdu=65536 sendzero=1 same_addr=0 sndbuf=16384 rcvbuf=16384\nprovider ticotsord tsdu=0 sendzero=0 same_addr=0 sndbuf=16384 rcvbuf=16384\nprovider ticlts tsdu=8192 sendzero=1 same_addr=0 sndbuf=16384 rcvbuf=16384\n1 0 open ticlts block => ok 0 T_UNBND\n",
        """|line 6: expected a step, a stall line or the line end, found the end of the input
2 0 look 0|line 6: the last line has no LF at its end
3 0 look 0~|line 6: expected the number of the step, 2, or stall or end, found '3'
end 2~|line 6: end: expected the number of steps, 1, found '2'
end 1 2~|line 6: end: expected the end of the line, found '2'
end 1~end 1~|line 7: nothing stands behind the line end
2 33 look 0~|line 6: expected a worker from 0 to 32, found '33'
2 0 frob 0~|line 6: unknown call 'frob'
2 0 sndreldata 0 udata=x:62~|line 6: unknown call 'sndreldata', which version 2 has
2 0 rcvreldata 0 umax=64~|line 6: unknown call 'rcvreldata', which version 2 has
2 1 more => ok T_UNBND~|line 6: more: no step above begins a call of worker 1
2 0 more =>~|line 6: open: answer: expected ok, err or part, found the end of the line
2 0 bind 0 qlen=0~|line 6: bind: misplaced field 'qlen', expected addr
2 0 bind 0 addr=t:a~|line 6: bind: addr: expected bytes after x:, found 't:a'
2 0 bind 0 addr=x:6~|line 6: bind: addr: expected pairs of the digits 0 to 9 and a to f after x:, found 'x:6'
2 0 bind 0 addr=x:~|line 6: bind: field 'qlen' is missing
2 0 bind a~|line 6: bind: expected a number of 32 bits without sign and leading zeros, found 'a'
2 0 sndv 0 parts=x:,t:a~|line 6: sndv: parts: expected bytes after x:, found 'x:,t:a'
2 0 rcvv 0 sizes=1,,2~|line 6: rcvv: sizes: expected a number of 32 bits without sign and leading zeros, found '1,,2'
2 0 open ticots~|line 6: open: expected block or nonblock, found the end of the line
2 0 look 0~|line 6: look: expected =>, found the end of the line
2 0 look 0 x~|line 6: look: expected =>, found 'x'
2 0 look 0 => yes~|line 6: look: answer: expected ok, err or part, found 'yes'
2 0 look 0 => ok T_X~|line 6: look: answer: expected the name of an event, or 0, found 'T_X'
2 0 look 0 => ok 0~|line 6: look: answer: expected the name of a state, found the end of the line
2 0 look 0 => ok 0 T_X~|line 6: look: answer: expected the name of a state, found 'T_X'
2 0 look 0 => ok 0 T_IDLE x~|line 6: look: answer: expected the end of the line, found 'x'
2 0 look 0 => err TX T_IDLE~|line 6: look: answer: expected the name of an error, found 'TX'
2 0 look 0 => err TLOOK T_IDLE~|line 6: look: answer: expected the name of an event, found 'T_IDLE'
2 0 look 0 => err TBUFOVFLW x~|line 6: look: answer: expected a number of 32 bits without sign and leading zeros, found 'x'
2 0 getinfo 0 => ok 1 1 1 1 1 x~|line 6: getinfo: answer: expected a number of 32 bits, -1 or -2, found 'x'
2 0 getinfo 0 => ok 1 1 1 1 1 1 4~|line 6: getinfo: answer: expected 1, 2 or 3, found '4'
stall 0 frob~|line 6: stall: unknown call 'frob'
stall 0 rcvreldata 0 umax=64~|line 6: stall: unknown call 'rcvreldata', which version 2 has
stall 0 more x~|line 6: stall: open: expected the end of the line, found 'x'
stall 0 more~2 0 look 0~|line 7: expected stall or end, found '2'
stall 0 more~stall 0 more~|line 7: stall: worker 0 stalls alone, others stall in the order of their numbers
""",
    ),
    "more-calls-than-a-script-may-have": Group(
        "replay",
        MOST_LINES,
        "xti-script 1\n# x\n0 open a ticots\n",
        """0 look a~|line 100003: more than 100000 calls
""",
    ),
    "more-bytes-than-a-script-may-have": Group(
        "replay",
        MOST_BYTES // MOST_DATA + 1,
        "xti-script 1\n0 open a ticots\n",
        """0 snd a data=f:65536~|line 67: more than 4194304 bytes in the arguments of all calls
""",
    ),
    "more-events-than-a-link-script-may-have": Group(
        "link",
        MOST_EVENTS + 1,
        "xti-link 1\n",
        """timeout~|line 10002: more than 10000 events
""",
    ),
    "a-reason-that-is-cut": Group(
        "replay",
        20,
        "xti-script 1\n",
        """\x07\x07\x07\x07\x07\x07\x07\x07|line 2: expected a worker from 0 to 32, found '\\x07\\x07\\x07\\x07\\x07\\x07\\x07\\x07\\x07\\x07\\x07\\x07\\x07\\x07\\x07'..
""",
    ),
    "a-wrong-first-line": Group(
        "replay",
        1,
        "",
        """xti-script 1 ~|line 1
~xti-script 1~|line 1
xti-script  1~|line 1
Xti-script 1~|line 1
xti-script~|line 1
xti-script 1\x00~|line 1
""",
    ),
    "a-wrong-call-after-the-first-line": Group(
        "replay",
        1,
        "xti-script 1\n",
        """0 open a  ticlts~|line 2
0 open a\tticlts~|line 2
0 open a ticlts\r~|line 2
 0 open a ticlts~|line 2
0 open a ticlts ~|line 2
++++~|line 2
+++ ~|line 2
+++\r~+++~|line 2
 ~|line 2
\r~|line 2
 # x~|line 2
#\xe9~|line 2
0~|line 2
open a ticlts~|line 2
00 open a ticlts~|line 2
33 open a ticlts~|line 2
4294967297 open a ticlts~|line 2
-1 open a ticlts~|line 2
x open a ticlts~|line 2
0 frob a~|line 2
0 Open a ticlts~|line 2
0 listen a q~|line 2
0 open a~|line 2
0 open~|line 2
0 open a block~|line 2
0 open a ticot~|line 2
0 open a ticotsords~|line 2
0 open a Other~|line 2
0 open a ticlts nonblock block~|line 2
0 open a ticlts mode=block~|line 2
0 open a ticlts wait~|line 2
0 open A ticlts~|line 2
0 open 1a ticlts~|line 2
0 open a-b ticlts~|line 2
0 open \xe9 ticlts~|line 2
0 open a23456789_1234567 ticlts~|line 2
0 look a~|line 2
0 look a~0 open a ticlts~|line 2
""",
    ),
    "a-wrong-head": Group(
        "replay",
        1,
        "xti-script 1\n+++\n",
        """+++ ~|line 2
 +++~|line 2
+++\r~|line 2
#+++~|line 2
[ticots~+++~|line 2
[ticots]~[ticots]~+++~|line 2
[[ticots]]~+++~|line 2
tsdu = 1~+++~|line 2
[other]~+++~|line 2
[Ticots]~+++~|line 2
[ticots.tsdu]~+++~|line 2
[ticots]~qlen = 1~+++~|line 2
[ticots]~Tsdu = 1~+++~|line 2
[ticots]~tsdu = 1~tsdu = 1~+++~|line 2
[ticots]~tsdu = 01~+++~|line 2
[ticots]~tsdu = -2~+++~|line 2
[ticots]~tsdu = 65537~+++~|line 2
[ticots]~tsdu = 4294967297~+++~|line 2
[ticots]~tsdu = 1.0~+++~|line 2
[ticots]~tsdu = '1'~+++~|line 2
[ticotsord]~tsdu = 65537~+++~|line 2
[ticotsord]~tsdu = 0~sendzero = true~+++~|line 2
[ticlts]~tsdu = 0~+++~|line 2
[ticlts]~tsdu = 65537~+++~|line 2
[ticots]~sendzero = 'true'~+++~|line 2
[ticots]~same_addr = 0~+++~|line 2
[ticots]~sndbuf = 0~+++~|line 2
[ticots]~sndbuf = 65537~+++~|line 2
[ticots]~sndbuf = -1~+++~|line 2
[ticots]~sndbuf = false~+++~|line 2
[ticotsord]~rcvbuf = 0~+++~|line 2
[ticots]~tsdu = 0~+++~0 frob a~|line 2
""",
    ),
    "a-wrong-line-after-a-head": Group(
        "replay",
        1,
        "xti-script 1\n+++\n[ticots]\n+++\n# x\n\n0 open a ticots\n#\n",
        """+++~|line 9
+++~+++~|line 9
0 frob a~|line 9
0 frob a|line 9
0 look a # x~|line 9
xti-script 1~|line 9
""",
    ),
    "a-wrong-call-of-two-workers": Group(
        "replay",
        1,
        "xti-script 1\n0 open a ticlts\n1 open b ticlts\n",
        """0 open a ticlts~|line 4
1 open a ticlts~|line 4
1 open b ticlts~|line 4
0 look b~|line 4
2 look b~|line 4
0 look a a~|line 4
0 close~|line 4
0 mode a~|line 4
0 mode a wait~|line 4
0 mode a block block~|line 4
0 mode a mode=block~|line 4
0 bind a t:a~|line 4
0 bind a Addr=t:a~|line 4
0 bind a addr =t:a~|line 4
0 bind a addr=t:a addr=t:a~|line 4
0 bind a amax=1 qlen=1~|line 4
0 bind a omax=1~|line 4
0 bind a qlen=~|line 4: bind: qlen: expected a number of 32 bits without sign and leading zeros, found ''
0 bind a qlen=01~|line 4
0 bind a qlen=4294967296~|line 4
0 bind a qlen=+1~|line 4
0 bind a qlen=x~|line 4
0 bind a addr=~|line 4: bind: addr: expected bytes after t:, x: or f:, found ''
0 bind a addr=a~|line 4
0 bind a addr=t:~|line 4
0 bind a addr=t:a/b~|line 4
0 bind a addr=x:6~|line 4
0 bind a addr=x:6G~|line 4
0 bind a addr=x:6A~|line 4
0 bind a addr=y:61~|line 4
0 bind a addr=f:~|line 4
0 bind a addr=f:01~|line 4
0 bind a addr=f:65537~|line 4
0 bind a addr=o:1/1=1~|line 4
0 connect~|line 4
0 connect a opt=o:~|line 4
0 connect a opt=o:1~|line 4
0 connect a opt=o:1/2=~|line 4
0 connect a opt=o:1/2,~|line 4
0 connect a opt=o:1/2/3~|line 4
0 connect a udata=x: opt=x:~|line 4
0 connect a pmax=1~|line 4
0 rcvconnect a addr=t:a~|line 4
0 listen a~|line 4
0 listen a 1q~|line 4
0 listen a -~|line 4
0 accept a a~|line 4
0 accept a a q~|line 4
0 accept a b -~|line 4
0 snddis a~|line 4
0 snddis a q~|line 4
0 snddis a a~|line 4
0 snddis a - -~|line 4
0 rcvdis a amax=1~|line 4
0 snd a~|line 4
0 snd a flags=1~|line 4
0 snd a flags=1 data=t:x~|line 4
0 snd a data=t:x,t:y~|line 4
0 sndv a data=t:x~|line 4
0 rcv a sizes=1~|line 4
0 rcvv a~|line 4
0 sndrel a udata=x:~|line 4
0 getinfo a amax=1~|line 4
0 getprotaddr a omax=1~|line 4
0 optmgmt a~|line 4
0 optmgmt a action=4~|line 4
0 optmgmt a Check~|line 4
0 optmgmt a check check~|line 4
0 sndudata a addr=t:a~|line 4
0 sndudata a data=t:x addr=t:a~|line 4
0 sndudata a addr=t:a data=t:x opt=x:~|line 4
0 sndudata a parts=t:x~|line 4
0 sndvudata a addr=t:a~|line 4
0 sndvudata a parts=~|line 4: sndvudata: parts: expected bytes after t:, x: or f:, found ''
0 sndvudata a parts=t:a,~|line 4
0 sndvudata a parts=t:a,,t:b~|line 4
0 sndvudata a parts=x:,x:,x:,x:,x:,x:,x:,x:,x:,x:,x:,x:,x:,x:,x:,x:,x:,x:,x:,x:,x:,x:,x:,x:,x:,x:,x:,x:,x:,x:,x:,x:,x:~|line 4
0 rcvudata a max=t:a~|line 4
0 rcvudata a omax=1 amax=1~|line 4
0 rcvvudata a~|line 4
0 rcvvudata a sizes=~|line 4: rcvvudata: sizes: expected a number of 32 bits without sign and leading zeros, found ''
0 rcvvudata a sizes=1,~|line 4
0 rcvvudata a sizes=1,01~|line 4
0 rcvvudata a amax=1 sizes=1~|line 4
0 rcvvudata a sizes=1,1,1,1,1,1,1,1,1,1,1,1,1,1,1,1,1,1,1,1,1,1,1,1,1,1,1,1,1,1,1,1,1~|line 4
0 rcvuderr a max=1~|line 4
0 getstate a 1~|line 4
0 sync~|line 4
0 unbind a addr=t:a~|line 4
""",
    ),
    "a-script-that-is-not-utf-8": Group(
        "replay",
        1,
        "",
        """xti-script 1~\udcff~|line 2
xti-script 1~+++~\udcff~+++~|line 2
xti-script 1~+++~[ticots]~+++~# x~~0 open a ticots~#~#\udc80~|line 9
xti-script 1~0 open a ticlts~1 open b ticlts~0 bind a addr=t:\udcff~|line 4
""",
    ),
}
