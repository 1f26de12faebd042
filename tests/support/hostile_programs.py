"""Harmful programs in place of lrup-engines, for test_lrup_solve_hostile.py.

Each program is a comment with its name, and a body. After the name there may be `slow` or
`leaves`."""
import re
from typing import List, NamedTuple

from hostile import AGAIN, PROOF

COMMON = AGAIN + f"""
import resource
LINE, PROOF, libc = 's UNSATISFIABLE', {PROOF!r}, ctypes.CDLL(None)

def proves(proof=PROOF):
    stream(1, proof)
    check()
    hears('lrupd')

def waits():        # lrupd, for its stream
    global pid, feeding
    os.mkfifo(folder + '/round-1.stream-1')
    check()
    feeding = open(folder + '/round-1.stream-1', 'w')
    pid = checker_of(front, '--rounds')

def survives():     # the supervisor is gone, and lrup-model checks the model
    global pid
    libc.prctl(1, 0)
    os.setpgid(0, 0)
    os.kill(os.getppid(), 9)
    pid = checker_of(front, formula)

def ends(line=LINE):
    feeding.close()
    hears('lrupd')
    forge(line)
    time.sleep(0.2)

def children(count, does, *words):
    for k in range(count):
        if os.fork() == 0:
            if 'feeding' in globals(): feeding.close()
            does(*words)
            time.sleep(1000)

def always(does, *words):
    while True: does(*words)

def tries(does, *words):
    try: does(*words)
    except OSError: pass

def overwrites(path, data):
    file = os.open(path, os.O_RDWR)
    os.pwrite(file, data, 0)
    os.close(file)

def turns(pid):
    for number in 50 * [signal.SIGSTOP, signal.SIGCONT]:
        tries(os.kill, pid, number)
        time.sleep(0.01)

def named(path, text):      # whatever has that name now is another file
    open(here + '/new', 'w').write(text)
    os.chmod(here + '/new', 0o755)
    os.rename(here + '/new', path)

def daemon():
    os.setsid()
    if os.fork(): os._exit(0)
    os.closerange(0, 100)

OUTPUT = f'/proc/{{front}}/fd/{{of_lrupd}}'
"""
# For a formula that has a model.
PROGRAMS = """
# its parent is killed
os.kill(os.getppid(), 9); time.sleep(1000)
# its parent is killed, and it stays, leaves
libc.prctl(1, 0); os.kill(os.getppid(), 9); proves(); time.sleep(1000)
# its parent is stopped
os.kill(os.getppid(), signal.SIGSTOP); proves(); time.sleep(1000)
# its group is stopped
os.killpg(0, signal.SIGSTOP); time.sleep(1000)
# it leaves its group, and stops
os.setsid(); os.kill(os.getpid(), signal.SIGSTOP)
# lrup-model is stopped, slow
model('---'); survives(); os.kill(pid, signal.SIGSTOP)
# lrup-model is killed, and a line is forged, slow
model('---'); survives(); os.kill(int(front), signal.SIGSTOP); os.kill(pid, 9); time.sleep(0.2)
forge('s SATISFIABLE'); os.kill(int(front), signal.SIGCONT)
# a line of lrup-model's is forged all the time, slow
model('---'); survives(); children(1, always, tries, forge, 's SATISFIABLE'); time.sleep(1)
os.killpg(0, 9)
# lrupd is stopped
waits(); os.kill(pid, signal.SIGSTOP); feeding.close(); forge(LINE); time.sleep(1000)
# a line is forged all the time
waits(); children(1, always, forge, LINE); ends()
# the output is cut, and forged
waits(); children(1, always, os.truncate, OUTPUT, 0); children(1, always, forge, LINE); ends()
# the front's files are written, all but two
stream(1, PROOF); check()
for name in os.listdir(f'/proc/{front}/fd'):
    file = f'/proc/{front}/fd/{name}'
    if name not in '12':
        tries(lambda: os.write(os.open(file, os.O_WRONLY | os.O_NONBLOCK), 2 * LINE.encode()))
hears('lrupd')
# another formula has the name
named(here + '/formula.cnf', 'p cnf 1 2\\n1 0\\n-1 0\\n'); proves('3 0 1 2 0\\n')
# the formula is gone
os.unlink(here + '/formula.cnf'); proves()
# a folder of another process
here, end = os.pipe()
def others():
    os.mkdir(folder + '/other')
    open(folder + '/other/round-1.stream-1', 'w').write(PROOF)
    os.write(end, f"{os.getpid()} {os.open(folder + '/other', os.O_PATH)}".encode())
children(1, others); say('check 1 10 10 0 ' + os.read(here, 100).decode()); hears('lrupd')
# streams are the front's files
for k, name in enumerate((FROM_ENGINES, TO_ENGINES, of_lrupd, formula.split('/')[-1]), 1):
    os.symlink(f'/proc/{front}/fd/{name}', folder + f'/round-1.stream-{k}')
check('4 10 10 0'); time.sleep(1)
# a model before its signs
say('model'); model('---'); time.sleep(1)
# no end of checks
stream(1, ''); always(check)
# no end of models
always(model, '---')
# a hundred orphans
signal.signal(signal.SIGTERM, signal.SIG_IGN); children(100, os.setsid)
# orphans that get more
signal.signal(signal.SIGTERM, lambda *_: os.fork()); children(3, always, time.sleep, 1)
# a line of orphans
signal.signal(signal.SIGTERM, signal.SIG_IGN)
for k in range(30):
    if os.fork(): break
    os.setsid()
time.sleep(1000)
# its own orphans
libc.prctl(36, 1); children(5, daemon); time.sleep(0.2)
# daemons
children(20, daemon); os.closerange(0, 100)
# in lrupd's group
waits(); os.setpgid(0, pid); feeding.close(); time.sleep(1000)
# in the front's group
os.setpgid(0, os.getpgid(int(front))); proves(); time.sleep(1000)
# its children in lrupd's group
waits(); children(9, os.setpgid, 0, pid); time.sleep(0.2); feeding.close(); os._exit(0)
# its children in lrup-model's group, slow
model('---'); survives(); children(9, os.setpgid, 0, pid)
# all but the front are killed, leaves
def kill(name):
    found = open(f'/proc/{name}/environ', 'rb').read()
    if os.environ['LRUP_MARK'].encode() in found: os.kill(int(name), 9)
for name in os.listdir('/proc'):
    if name not in (front, str(os.getpid())): tries(kill, name)
# the front is killed
os.kill(int(front), 9); time.sleep(1000)
"""
# For a formula that 1 2 -3 satisfies.
SATISFYING = """
# a model, and it stays
model('++-'); time.sleep(1000)
# while lrupd runs
waits(); model('++-'); time.sleep(1000)
# signs after the model
model('++-'); [say('v +++') for k in range(50)]
# another model after it
model('++-'); model('---')
# a model everywhere
model('++-'); everywhere(b'v 1 -1 0\\n')
# lrup-model is stopped and continued, slow
model('++-'); survives(); turns(pid)
# the model is written all the time
children(1, always, tries, overwrites, in_memory('model')[0], b'v 1 2 -3 0\\ns UNSATISFIABLE\\n')
model('++-'); time.sleep(1000)
"""
# For a formula that has no model, and whose proof is PROOF.
PROVING = """
# lrupd is stopped and continued
waits(); children(1, turns, pid); feeding.write(PROOF); feeding.close(); hears('lrupd')
# its output is cut
stream(1, PROOF); check(); children(1, always, os.truncate, OUTPUT, 0); hears('lrupd')
# its output grows
os.truncate(OUTPUT, 1 << 40); proves()
"""


class Program(NamedTuple):
    """A program in place of lrup-engines."""
    name: str
    body: str
    is_slow: bool       # lrup-model has to take a moment
    may_leave: bool     # processes, since it kills the supervisor


def programs(text: str) -> List[Program]:
    found = re.findall(r"^# (.*?)(, slow)?(, leaves)?\n((?:[^#].*\n)+)", text, re.M)
    return [Program(name, COMMON + body, bool(slow), bool(leaves))
            for name, slow, leaves, body in found]
